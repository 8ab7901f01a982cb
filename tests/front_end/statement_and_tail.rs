fn f() { a; { b } if c { d } e }
