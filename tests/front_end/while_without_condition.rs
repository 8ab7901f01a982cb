fn f() { while {} }
