fn f() { a + }
