// Each of three processes waits for what the one before it hands on.
chan ab[1], bc[1], ca[1];

process a {
  int v;
  v = recv(ca);
  send(ab, v + 1);
}

process b {
  int v;
  v = recv(ab);
  send(bc, v + 1);
}

process c {
  int v;
  v = recv(bc);
  send(ca, v + 1);
}
