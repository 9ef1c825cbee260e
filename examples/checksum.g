// Adler-32 over a table of bytes: unsigned sums that wrap in no step, remainders, shifts and or.
// The table is the text `Wikipedia`, whose checksum is 300286872.
gimple 1;
global const u8 bytes[9] = {87, 105, 107, 105, 112, 101, 100, 105, 97};
u32 step (u32 sum, u32 more) {
  <bb 2>:
    sum = sum + more;
    sum = sum % 65521;
    return sum;
}
i32 main () {
  ptr at;
  ptr end;
  u8 byte;
  u32 wide;
  u32 a;
  u32 b;
  <bb 2>:
    a = 1;
    at = &bytes;
    end = &bytes@9;
    goto <bb 3>;
  <bb 3>:
    if (at == end) goto <bb 5>; else goto <bb 4>;
  <bb 4>:
    byte = MEM <u8> [at];
    wide = (u32) byte;
    a = step (a, wide);
    b = step (b, a);
    at = at + 1;
    goto <bb 3>;
  <bb 5>:
    b = b << 16;
    a = a | b;
    putint (a);
    return 0;
}
