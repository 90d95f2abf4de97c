// A channel without a place: the sender goes on only when its number was received.
shared int x;
chan c[0];

process a {
  send(c, 7);
  x = 2;
}

process b {
  int v;
  print(x);
  v = recv(c);
  print(v);
}
