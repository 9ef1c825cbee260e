// A ring buffer of four places between a producer and a consumer, with its head and its count in memory.
// It reads input numbers up to the first 0 and prints the last four of them, the oldest first. Run it with: 5 6 7 8 9 10
// Watch: `put` and `take` write globals, so a load behind their calls has to stay.
gimple 1;
global i64 ring[4];
global u32 head;
global u32 count;
void put (i64 number) {
  u32 at;
  u32 n;
  i64 skip;
  ptr p;
  <bb 2>:
    at = MEM <u32> [&head];
    n = MEM <u32> [&count];
    at = at + n;
    at = at & 3;
    skip = (i64) at;
    skip = skip * 8;
    p = &ring;
    p = p + skip;
    MEM <i64> [p] = number;
    if (n < 4) goto <bb 3>; else goto <bb 4>;
  <bb 3>:
    n = n + 1;
    MEM <u32> [&count] = n;
    return;
  <bb 4>:
    at = at + 1;
    at = at & 3;
    MEM <u32> [&head] = at;
    return;
}
i64 take () {
  u32 at;
  u32 n;
  i64 skip;
  ptr p;
  i64 number;
  <bb 2>:
    at = MEM <u32> [&head];
    skip = (i64) at;
    skip = skip * 8;
    p = &ring;
    p = p + skip;
    number = MEM <i64> [p];
    at = at + 1;
    at = at & 3;
    MEM <u32> [&head] = at;
    n = MEM <u32> [&count];
    n = n - 1;
    MEM <u32> [&count] = n;
    return number;
}
i32 main () {
  i64 number;
  u32 n;
  <bb 2>:
    number = getint ();
    if (number == 0) goto <bb 4>; else goto <bb 3>;
  <bb 3>:
    put (number);
    goto <bb 2>;
  <bb 4>:
    n = MEM <u32> [&count];
    if (n == 0) goto <bb 6>; else goto <bb 5>;
  <bb 5>:
    number = take ();
    putint (number);
    goto <bb 4>;
  <bb 6>:
    return 0;
}
