gimple 1;

// A counter for a ring buffer: `next` steps round a ring of `size` places, and
// `audit` is what is left of a check that nothing calls any more.
i32 next (i32 place, i32 step, i32 size) {
  i32 moved;
  <bb 2>:
    moved = place + step;
    if (moved >= size) goto <bb 3>; else goto <bb 4>;
  <bb 3>:
    moved = moved - size;
    goto <bb 4>;
  <bb 4>:
    return moved;
}

void report (i32 place) {
  <bb 2>:
    putint (place);
    return;
}

void audit (i32 place, i32 size) {
  <bb 2>:
    if (place < size) goto <bb 4>; else goto <bb 3>;
  <bb 3>:
    complain (place);
    goto <bb 4>;
  <bb 4>:
    return;
}

void complain (i32 place) {
  <bb 2>:
    putint (-1);
    report (place);
    return;
}

i32 main () {
  i32 place;
  i32 left;
  <bb 2>:
    place = 0;
    left = 9;
    goto <bb 3>;
  <bb 3>:
    if (left == 0) goto <bb 5>; else goto <bb 4>;
  <bb 4>:
    place = next (place, 3, 8);
    report (place);
    left = left - 1;
    goto <bb 3>;
  <bb 5>:
    return 0;
}
