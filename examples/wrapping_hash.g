// A hash of a text as many C programs write it, 31 * hash + byte in signed numbers: it counts on sums that wrap, so it needs -fwrapv.
// Watch: without -fwrapv the first sum outside 32 signed bits traps; of -fwrapv and -ftrapv the last word counts.
// Input: the bytes of the text; 0, or the end of the input, ends it. The status is the bucket of the hash among 16.
gimple 1;
i32 main () {
  i64 in;
  i32 byte;
  i32 hash;
  i32 bucket;
  <bb 2>:
    goto <bb 3>;
  <bb 3>:
    in = getint ();
    if (in == 0) goto <bb 5>; else goto <bb 4>;
  <bb 4>:
    byte = (i32) in;
    hash = hash * 31;
    hash = hash + byte;
    goto <bb 3>;
  <bb 5>:
    putint (hash);
    bucket = hash & 15;
    return bucket;
}
