DELETE FROM readings WHERE celsius > 40; -- the sensor never reads more
