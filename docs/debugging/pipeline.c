// Three numbers are made, scaled by ten, and added up. The sum should be 60.
chan made[2], scaled[2];
shared int total;

process make {
  int i = 1;
  while (i <= 3) {
    send(made, i);
    i = i + 1;
  }
}

process scale {
  int k = 0;
  int v;
  while (k < 3) {
    v = recv(made);
    send(scaled, v * 20);
    k = k + 1;
  }
}

process add {
  int k = 0;
  int v;
  int sum = 0;
  while (k < 3) {
    v = recv(scaled);
    sum = sum + v;
    k = k + 1;
  }
  total = sum;
}
