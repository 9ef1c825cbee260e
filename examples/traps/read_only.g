// A store through a pointer to a `const` global.
gimple 1;
global const i32 limit = {10};
i32 main () {
  ptr p;
  <bb 2>:
    p = &limit;
    MEM <i32> [p] = 11;
    return 0;
}
