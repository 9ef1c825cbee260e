// The third element of an array of two.
gimple 1;
global i32 pair[2];
i32 main () {
  ptr p;
  i32 a;
  <bb 2>:
    p = &pair;
    p = p + 8;
    a = MEM <i32> [p];
    return 0;
}
