fn f() { for in y {} }
