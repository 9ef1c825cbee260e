// Memory is made of slots: no access goes across two of them, and none reads one as another scalar.
gimple 1;
global i32 pair[2];
i32 main () {
  ptr p;
  i64 a;
  <bb 2>:
    p = &pair;
    a = MEM <i64> [p];
    return 0;
}
