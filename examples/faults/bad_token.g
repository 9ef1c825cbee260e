// An assignment has one operator at most: the second one is a token that goes on no program.
gimple 1;
i32 main () {
  i32 x;
  <bb 2>:
    x = 1 + 2 + 3;
    return x;
}
