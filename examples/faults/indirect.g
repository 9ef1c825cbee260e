// A call through a register is for programs that begin with `gimple 2;`: here its `*` goes on no program.
gimple 1;
i32 main () {
  ptr p;
  <bb 2>:
    *<void ()> p ();
    return 0;
}
