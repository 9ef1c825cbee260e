// A small stack machine: the code is a read-only table, the loop is one switch.
// Watch: the switch goes back to one block, and every case is a jump table entry for a compiler.
// The codes: 0 stops, 1 k pushes k, 2 adds, 3 multiplies, 4 prints the top. It prints 3 * (4 + 5) = 27, then 27 + 1.
gimple 1;
global const i32 code[14] = {1, 3, 1, 4, 1, 5, 2, 3, 4, 1, 1, 2, 4, 0};
global i32 stack[8];
i32 main () {
  ptr pc;
  ptr top;
  i32 op;
  i32 a;
  i32 b;
  <bb 2>:
    pc = &code;
    top = &stack;
    goto <bb 3>;
  <bb 3>:
    op = MEM <i32> [pc];
    pc = pc + 4;
    switch (op) { case 1: <bb 4>; case 2: <bb 5>; case 3: <bb 6>; case 4: <bb 7>; default: <bb 9>; }
  <bb 4>:
    a = MEM <i32> [pc];
    pc = pc + 4;
    goto <bb 8>;
  <bb 5>:
    top = top + -8;
    a = MEM <i32> [top];
    b = MEM <i32> [top@4];
    a = a + b;
    goto <bb 8>;
  <bb 6>:
    top = top + -8;
    a = MEM <i32> [top];
    b = MEM <i32> [top@4];
    a = a * b;
    goto <bb 8>;
  <bb 7>:
    a = MEM <i32> [top@-4];
    putint (a);
    goto <bb 3>;
  <bb 8>:
    MEM <i32> [top] = a;
    top = top + 4;
    goto <bb 3>;
  <bb 9>:
    return 0;
}
