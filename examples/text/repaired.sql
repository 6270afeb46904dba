UPDATE customers SET tier = 'gold' WHERE spent >= 499;
