UPDATE t SET a = a + 5;
UPDATE t SET b = a + 2;
