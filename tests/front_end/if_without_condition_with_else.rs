fn f() { if {} else { a } }
