// The text ends where a program does not.
gimple 1;
i32 main () {
  <bb 2>:
    return 0;
