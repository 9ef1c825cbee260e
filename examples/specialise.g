// A filter whose kernel is called with a few fixed shapes, as a library routine is in a whole program.
// Watch: `scale` is called with the divisor 4 in two places and with 7 in a third one; `unused_mode` is never read; `debug` is never called.
gimple 1;
i32 scale (i32 value, i32 by, i32 unused_mode) {
  i32 x;
  <bb 2>:
    if (by == 0) goto <bb 3>; else goto <bb 4>;
  <bb 3>:
    return value;
  <bb 4>:
    x = value * 3;
    x = x / by;
    return x;
}
void debug (i32 value) {
  <bb 2>:
    putint (value);
    return;
}
i32 main () {
  i64 in;
  i32 v;
  i32 r;
  <bb 2>:
    in = getint ();
    v = (i32) in;
    r = scale (v, 4, 0);
    putint (r);
    r = scale (r, 4, 1);
    putint (r);
    r = scale (v, 7, 0);
    putint (r);
    return 0;
}
