shared int buf[4];
shared int head, tail;
sem empty = 4, full = 0, m = 1;

void put(int v) {
  P(empty);
  P(m);
  buf[tail % 4] = v;
  tail = tail + 1;
  V(m);
  V(full);
}

int get() {
  int v;
  P(full);
  P(m);
  v = buf[head % 4];
  head = head + 1;
  V(m);
  V(empty);
  return v;
}

process producer {
  for (int i = 0; i < 100; i++) {
    int w = i;
    if (i == 57) { w = 0; }
    put(w);
  }
}

process consumer {
  for (int i = 0; i < 100; i++) {
    int v = get();
    assert(v == i);
  }
}
