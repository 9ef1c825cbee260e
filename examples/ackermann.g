// Deep recursion without a stack of ours: Ackermann's function at small arguments, the usual test of call overhead.
// Watch: each call is a transfer, and so is each return.
gimple 1;
i32 ack (i32 m, i32 n) {
  i32 a;
  <bb 2>:
    if (m == 0) goto <bb 3>; else goto <bb 4>;
  <bb 3>:
    n = n + 1;
    return n;
  <bb 4>:
    m = m - 1;
    if (n == 0) goto <bb 5>; else goto <bb 6>;
  <bb 5>:
    a = ack (m, 1);
    return a;
  <bb 6>:
    n = n - 1;
    a = m + 1;
    a = ack (a, n);
    a = ack (m, a);
    return a;
}
i32 main () {
  i32 r;
  <bb 2>:
    r = ack (2, 6);
    putint (r);
    return 0;
}
