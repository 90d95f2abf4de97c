shared int a, b;
shared int total;

process sum {
  a = 19;
  b = a + 4;
  total = a + b;
  print(total);
  print(total + 100);
}
