// Two instances of one class template, as a C++ compiler makes them: a stack of prices and a stack of times, both numbers of
// 64 bits. The names of registers and labels differ, since the second one was written out by hand long ago.
// It reads a price and a time, and prints the sum of each stack. Run it with: 30 12
// Watch: `push` and `at` of the two are the same by their form, and so is `sum`, since what it calls is; `peak` of the two
// differs in one operator, so it stays twice.
gimple 1;
global i64 prices[9];
global i64 times[9];
ptr price_at (ptr stack, i64 place) {
  i64 bytes;
  ptr slot;
  <bb 2>:
    bytes = place * 8;
    slot = stack + bytes;
    return slot;
}
void price_push (ptr stack, i64 item) {
  i64 size;
  ptr slot;
  <bb 2>:
    size = MEM <i64> [stack];
    size = size + 1;
    slot = price_at (stack, size);
    MEM <i64> [slot] = item;
    MEM <i64> [stack] = size;
    return;
}
i64 price_sum (ptr stack, i64 place) {
  i64 item;
  i64 rest;
  ptr slot;
  <bb 2>:
    if (place == 0) goto <bb 3>; else goto <bb 4>;
  <bb 3>:
    return 0;
  <bb 4>:
    slot = price_at (stack, place);
    item = MEM <i64> [slot];
    place = place - 1;
    rest = price_sum (stack, place);
    item = item + rest;
    return item;
}
i64 price_peak (ptr stack) {
  i64 size;
  i64 item;
  ptr slot;
  <bb 2>:
    size = MEM <i64> [stack];
    slot = price_at (stack, size);
    item = MEM <i64> [slot];
    item = item + size;
    return item;
}
ptr time_at (ptr self, i64 index) {
  i64 skip;
  ptr cell;
  <bb 1>:
    skip = index * 8;
    cell = self + skip;
    return cell;
}
void time_push (ptr self, i64 value) {
  i64 count;
  ptr cell;
  <bb 1>:
    count = MEM <i64> [self];
    count = count + 1;
    cell = time_at (self, count);
    MEM <i64> [cell] = value;
    MEM <i64> [self] = count;
    return;
}
i64 time_sum (ptr self, i64 index) {
  i64 value;
  i64 others;
  ptr cell;
  <bb 1>:
    if (index == 0) goto <bb 5>; else goto <bb 9>;
  <bb 5>:
    return 0;
  <bb 9>:
    cell = time_at (self, index);
    value = MEM <i64> [cell];
    index = index - 1;
    others = time_sum (self, index);
    value = value + others;
    return value;
}
i64 time_peak (ptr self) {
  i64 count;
  i64 value;
  ptr cell;
  <bb 1>:
    count = MEM <i64> [self];
    cell = time_at (self, count);
    value = MEM <i64> [cell];
    value = value - count;
    return value;
}
i32 main () {
  i64 number;
  i64 size;
  <bb 2>:
    number = getint ();
    price_push (&prices, number);
    price_push (&prices, 7);
    number = getint ();
    time_push (&times, number);
    size = MEM <i64> [&prices];
    number = price_sum (&prices, size);
    putint (number);
    size = MEM <i64> [&times];
    number = time_sum (&times, size);
    putint (number);
    number = price_peak (&prices);
    putint (number);
    number = time_peak (&times);
    putint (number);
    return 0;
}
