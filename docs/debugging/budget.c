// A loop that never ends: its counter is never raised.
shared int last;

process search {
  int i = 0;
  while (i < 10) {
    last = i;
  }
}
