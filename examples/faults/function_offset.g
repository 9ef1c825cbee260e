// The address of a function has no offset.
gimple 2;
i32 main () {
  ptr p;
  <bb 2>:
    p = &main@8;
    return 0;
}
