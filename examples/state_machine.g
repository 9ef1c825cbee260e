// A lexer's state machine over the input numbers, which are bytes of a text: it counts words and numbers.
// Run it with: 97 49 32 50 51 32 32 98 (the bytes of `a1 23  b`); it prints 2 words and 1 number.
// Watch: states are blocks, classes of bytes are a switch and two comparisons.
gimple 1;
i32 class_of (i64 byte) {
  <bb 2>:
    switch (byte) { case 0: <bb 3>; case 32: <bb 4>; case 10: <bb 4>; default: <bb 5>; }
  <bb 3>:
    return 0;
  <bb 4>:
    return 1;
  <bb 5>:
    if (byte < 48) goto <bb 7>; else goto <bb 6>;
  <bb 6>:
    if (byte <= 57) goto <bb 8>; else goto <bb 7>;
  <bb 7>:
    return 2;
  <bb 8>:
    return 3;
}
i32 main () {
  i64 byte;
  i32 class;
  i32 words;
  i32 numbers;
  <bb 2>:
    byte = getint ();
    class = class_of (byte);
    switch (class) { case 0: <bb 9>; case 1: <bb 2>; case 2: <bb 3>; default: <bb 6>; }
  <bb 3>:
    words = words + 1;
    goto <bb 4>;
  <bb 4>:
    byte = getint ();
    class = class_of (byte);
    if (class == 0) goto <bb 9>; else goto <bb 5>;
  <bb 5>:
    if (class == 1) goto <bb 2>; else goto <bb 4>;
  <bb 6>:
    numbers = numbers + 1;
    goto <bb 7>;
  <bb 7>:
    byte = getint ();
    class = class_of (byte);
    if (class == 0) goto <bb 9>; else goto <bb 8>;
  <bb 8>:
    if (class == 1) goto <bb 2>; else goto <bb 7>;
  <bb 9>:
    putint (words);
    putint (numbers);
    return 0;
}
