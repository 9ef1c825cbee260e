// A call with one argument too few: the second statement of the second function.
gimple 1;
i32 add (i32 a, i32 b) {
  i32 x;
  <bb 2>:
    x = a + b;
    return x;
}
i32 main () {
  i32 x;
  <bb 2>:
    x = 1;
    x = add (x);
    return x;
}
