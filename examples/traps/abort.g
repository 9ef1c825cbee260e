// It prints first: what was printed before a trap stays printed.
gimple 1;
i32 main () {
  <bb 2>:
    putint (1);
    abort ();
    return 0;
}
