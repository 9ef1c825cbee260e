// Two functions that call each other walk a chain of cells in memory: one handles the cells at even places, one those at odd places.
// Watch: the strong component of `even` and `odd`, and a pointer that comes out of memory.
gimple 1;
struct Cell {
  ptr next;
  i32 value;
};
global struct Cell chain[4] = {&chain@16, 10, &chain@32, 3, &chain@48, 20, null, 4};
i32 even (ptr cell) {
  i32 value;
  i32 rest;
  ptr next;
  <bb 2>:
    if (cell == null) goto <bb 3>; else goto <bb 4>;
  <bb 3>:
    return 0;
  <bb 4>:
    value = MEM <i32> [cell@8];
    next = MEM <ptr> [cell];
    rest = odd (next);
    rest = rest + value;
    return rest;
}
i32 odd (ptr cell) {
  i32 value;
  i32 rest;
  ptr next;
  <bb 2>:
    if (cell == null) goto <bb 3>; else goto <bb 4>;
  <bb 3>:
    return 0;
  <bb 4>:
    value = MEM <i32> [cell@8];
    next = MEM <ptr> [cell];
    rest = even (next);
    rest = rest - value;
    return rest;
}
i32 main () {
  i32 r;
  <bb 2>:
    r = even (&chain);
    putint (r);
    r = even (null);
    putint (r);
    return 0;
}
