// The digits of 305 are added up by recursion. A digit that is 0 should not come.
shared int total;

int digits(int n) {
  int rest = 0;
  assert(n % 10 != 0);
  if (n >= 10) {
    rest = digits(n / 10);
  }
  return rest + n % 10;
}

process main {
  total = digits(305);
}
