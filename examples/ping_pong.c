// Two processes hand a number to and fro, each time one larger.
chan ping[1], pong[1];

process left {
  int ball = 0;
  while (ball < 6) {
    send(ping, ball + 1);
    ball = recv(pong);
  }
  print(ball);
}

process right {
  int ball = 0;
  while (ball < 5) {
    ball = recv(ping);
    send(pong, ball + 1);
  }
  print(ball);
}
