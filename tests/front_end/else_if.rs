fn f() { if a {} else if b {} else { c } }
