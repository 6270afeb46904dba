UPDATE t SET a = a + 5;
