c = a + b * 2
