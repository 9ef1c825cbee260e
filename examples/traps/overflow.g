// Signed arithmetic does not wrap.
gimple 1;
i32 main () {
  i8 a;
  <bb 2>:
    a = 127;
    a = a + 1;
    return 0;
}
