fn f() { if {} }
