UPDATE t SET a = a + 6;
UPDATE t SET b = a + 1;
