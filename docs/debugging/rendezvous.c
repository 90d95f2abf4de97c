// A sender offers two numbers on a channel of capacity 0, and only one is received.
chan c[0];

process a {
  send(c, 1);
  send(c, 2);
}

process b {
  int v;
  v = recv(c);
}
