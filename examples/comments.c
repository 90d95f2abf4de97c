// Two shared cells.
shared int x, y; /* both start
                    at 0 */
process main {
  x = 4;     // one step
  y = x + x; /* two reads and a write */
  print(y);
  print(x /* read again */ + 1);
}
// nothing after it
