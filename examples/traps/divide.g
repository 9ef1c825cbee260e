// The divisor is an input number that is not there, so 0.
gimple 1;
i32 main () {
  i64 a;
  <bb 2>:
    a = getint ();
    a = 6 / a;
    return 0;
}
