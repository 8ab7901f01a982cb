fn f() { let b: Box<for<'a> G<'a> + H> = c; }
