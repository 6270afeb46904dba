DELETE FROM readings WHERE celsius > 42; -- the sensor never reads more
