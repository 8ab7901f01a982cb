fn f() { a = }
