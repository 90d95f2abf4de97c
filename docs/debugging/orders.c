// A client should pay 42. Both processes count the orders in one cell without a lock, so the run has races.
shared int paid, orders;
chan c[1];
sem done;

process shop {
  int price = 40;
  send(c, price);
  orders = orders + 1;
}

process client {
  int v;
  v = recv(c);
  paid = v;
  V(done);
  orders = orders + 1;
}
