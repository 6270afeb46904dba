UPDATE t SET rate = 30 WHERE income >= 86501;
