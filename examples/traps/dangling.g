// A local lives until its frame returns.
gimple 1;
ptr escape () {
  local i32 s;
  <bb 2>:
    return &s;
}
i32 main () {
  ptr p;
  i32 a;
  <bb 2>:
    p = escape ();
    a = MEM <i32> [p];
    return 0;
}
