// -fwrapv is for sums, differences and products alone: the least number / -1 traps in both modes.
gimple 1;
i32 main () {
  i32 x;
  <bb 2>:
    x = 2147483647;
    x = x + 1;
    putint (x);
    x = x / -1;
    return 0;
}
