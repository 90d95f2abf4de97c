// An index that leaves its array.
shared int slots[4];

process fill {
  int i = 0;
  int next = 0;
  while (i < 4) {
    next = next + 2;
    slots[next] = i;
    i = i + 1;
  }
}
