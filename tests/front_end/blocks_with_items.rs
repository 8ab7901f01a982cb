fn f() { { struct S; } { a } { m!(); } { let b = m!(); } }
