fn f() { m!(); let a = b::m!(); }
