fn f() {
  g }
