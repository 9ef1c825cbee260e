// A count has to be below the width of the result.
gimple 1;
i32 main () {
  u16 a;
  u64 count;
  <bb 2>:
    count = 16;
    a = 1 << count;
    return 0;
}
