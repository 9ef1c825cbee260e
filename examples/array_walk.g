// A recursive sum over the halves of an array, as a divide-and-conquer kernel.
// Watch: the formal `p` is an address into one global at every call, and `n` falls to 1.
gimple 1;
global const i16 samples[8] = {120, -40, 7, 0, 300, -1, 25, 9};
i64 sum (ptr p, i64 n) {
  i16 sample;
  i64 half;
  i64 rest;
  i64 skip;
  ptr q;
  i64 a;
  i64 b;
  <bb 2>:
    if (n == 1) goto <bb 3>; else goto <bb 4>;
  <bb 3>:
    sample = MEM <i16> [p];
    a = (i64) sample;
    return a;
  <bb 4>:
    half = n >> 1;
    rest = n - half;
    skip = half * 2;
    q = p + skip;
    a = sum (p, half);
    b = sum (q, rest);
    a = a + b;
    return a;
}
i32 main () {
  i64 total;
  <bb 2>:
    total = sum (&samples, 8);
    putint (total);
    total = sum (&samples@8, 3);
    putint (total);
    return 0;
}
