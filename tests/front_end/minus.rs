fn f() { a - -b - }
