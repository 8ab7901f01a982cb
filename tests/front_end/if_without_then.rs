fn f() { if a else if b {} c }
