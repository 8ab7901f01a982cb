fn f() { [0; { fn g() { h } 3 }] }
