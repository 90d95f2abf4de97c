// Two processes count in one cell without a lock.
shared int hits;

process left {
  hits = hits + 1;
}

process right {
  hits = hits + 1;
}
