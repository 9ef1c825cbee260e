// A pointer register is null at first, and null plus anything is null.
gimple 1;
i32 main () {
  ptr p;
  i32 a;
  <bb 2>:
    p = p + 4;
    a = MEM <i32> [p];
    return 0;
}
