fn f() { match a }
