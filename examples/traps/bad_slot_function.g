// A function has no slots: a load through its address traps, whatever the offset.
gimple 2;
i32 main () {
  ptr p;
  i32 a;
  <bb 2>:
    p = &main;
    a = MEM <i32> [p@-8];
    return 0;
}
