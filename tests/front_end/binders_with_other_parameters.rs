fn f() where for<'a, T, const N: usize, 'b: 'a> A<'a>: B, for<> C: D {}
