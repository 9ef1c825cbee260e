// A calculator that calls its operations through a table of function addresses. The header's 2 lets a program do so.
// Watch: the table is a read-only global; a call through a register writes the signature that it wants; function values are
// compared; `print_twice` is kept because its address is taken, and `spare`, which nothing names, is dropped.
// Input: 1, 2 or 3 and two numbers (their sum, difference or product), 4 (print twice from now on), another number to end.
gimple 2;
global const ptr operations[3] = {&add, &subtract, &multiply};
global ptr report = {&print_once};
i32 add (i32 a, i32 b) {
  i32 x;
  <bb 2>:
    x = a + b;
    return x;
}
i32 subtract (i32 a, i32 b) {
  i32 x;
  <bb 2>:
    x = a - b;
    return x;
}
i32 multiply (i32 a, i32 b) {
  i32 x;
  <bb 2>:
    x = a * b;
    return x;
}
void print_once (i32 x) {
  <bb 2>:
    putint (x);
    return;
}
void print_twice (i32 x) {
  <bb 2>:
    putint (x);
    print_once (x);
    return;
}
i32 spare (i32 a, i32 b) {
  <bb 2>:
    return a;
}
i32 main () {
  i64 code;
  i64 in;
  i32 a;
  i32 b;
  i32 subtractions;
  ptr entry;
  ptr handler;
  <bb 2>:
    goto <bb 3>;
  <bb 3>:
    code = getint ();
    switch (code) { case 1: <bb 4>; case 2: <bb 4>; case 3: <bb 4>; case 4: <bb 7>; default: <bb 8>; }
  <bb 4>:
    in = getint ();
    a = (i32) in;
    in = getint ();
    b = (i32) in;
    code = code - 1;
    code = code * 8;
    entry = &operations;
    entry = entry + code;
    handler = MEM <ptr> [entry];
    a = *<i32 (i32, i32)> handler (a, b);
    if (handler == &subtract) goto <bb 5>; else goto <bb 6>;
  <bb 5>:
    subtractions = subtractions + 1;
    goto <bb 6>;
  <bb 6>:
    handler = MEM <ptr> [&report];
    *<void (i32)> handler (a);
    goto <bb 3>;
  <bb 7>:
    MEM <ptr> [&report] = &print_twice;
    goto <bb 3>;
  <bb 8>:
    return subtractions;
}
