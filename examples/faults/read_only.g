// A store to a `const` global by its name is found before the program runs; through a pointer it is a trap.
gimple 1;
global const i32 limit = {10};
i32 main () {
  <bb 2>:
    MEM <i32> [&limit] = 11;
    return 0;
}
