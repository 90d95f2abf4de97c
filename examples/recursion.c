int factorial(int n) {
  int rest = 1;
  if (n > 1) {
    rest = factorial(n - 1);
  }
  return n * rest;
}

process main {
  int value = factorial(20);
  print(value);
  value = factorial(21);
  print(value);
}
