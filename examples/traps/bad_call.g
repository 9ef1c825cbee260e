// A call through a register names the signature that it wants. It traps where the register has another function, or no function.
// Watch: the function's address plus bytes is the same function. The input chooses what is called: 0 a function of another
// signature, 1 a variable, 2 null, which is NullAccess, 3 the function itself. The trap comes before a transfer is counted.
gimple 2;
global i32 word;
i32 twice (i32 n) {
  i32 x;
  <bb 2>:
    x = n + n;
    return x;
}
void show (i32 n) {
  <bb 2>:
    putint (n);
    return;
}
i32 main () {
  i64 in;
  ptr p;
  i32 a;
  <bb 2>:
    in = getint ();
    switch (in) { case 0: <bb 3>; case 1: <bb 4>; case 2: <bb 6>; default: <bb 5>; }
  <bb 3>:
    p = &show;
    goto <bb 6>;
  <bb 4>:
    p = &word;
    goto <bb 6>;
  <bb 5>:
    p = &twice;
    p = p + 4;
    goto <bb 6>;
  <bb 6>:
    a = *<i32 (i32)> p (21);
    putint (a);
    return 0;
}
