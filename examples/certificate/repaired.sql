UPDATE t SET a = a + 9;
