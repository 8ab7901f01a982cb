fn f() { g(a, 
