// Two processes add 1 each; every read and every write is under the lock. The sum should be 2.
shared int count;
sem m = 1, done;

process a {
  int seen;
  P(m);
  seen = count;
  V(m);
  P(m);
  count = seen + 1;
  V(m);
  V(done);
}

process b {
  int seen;
  P(m);
  seen = count;
  V(m);
  P(m);
  count = seen + 1;
  V(m);
  V(done);
}

process check {
  P(done);
  P(done);
  assert(count == 2);
}
