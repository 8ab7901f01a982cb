fn f() { for x in {} }
