// A price goes through four processes. The client should pay 42.
chan a[1], b[1], c[1];
shared int paid;

process shop {
  send(a, 14);
}

process tax {
  int v;
  v = recv(a);
  send(b, v * 2);
}

process bill {
  int v;
  v = recv(b);
  send(c, v + 12);
}

process client {
  int v;
  v = recv(c);
  paid = v;
}
