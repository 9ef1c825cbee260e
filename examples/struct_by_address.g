// Two points passed by address, as a front end lowers `dot (&a, &b)` on structs.
// Watch: `dot` only reads through its formals and every caller passes the address of a local, so the loads could stand at the calls.
gimple 1;
struct Point {
  i32 x;
  i32 y;
  u8 tag;
};
i32 dot (ptr a, ptr b) {
  i32 u;
  i32 v;
  i32 s;
  <bb 2>:
    u = MEM <i32> [a];
    v = MEM <i32> [b];
    s = u * v;
    u = MEM <i32> [a@4];
    v = MEM <i32> [b@4];
    u = u * v;
    s = s + u;
    return s;
}
void move_right (ptr p, i32 by) {
  i32 x;
  <bb 2>:
    x = MEM <i32> [p];
    x = x + by;
    MEM <i32> [p] = x;
    return;
}
i32 main () {
  local struct Point a;
  local struct Point b[2];
  i32 r;
  <bb 2>:
    MEM <i32> [&a] = 3;
    MEM <i32> [&a@4] = 4;
    MEM <u8> [&a@8] = 1;
    MEM <i32> [&b@12] = 5;
    MEM <i32> [&b@16] = -2;
    r = dot (&a, &b@12);
    putint (r);
    move_right (&b@12, 10);
    r = dot (&a, &b@12);
    putint (r);
    return 0;
}
