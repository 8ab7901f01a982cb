fn f<'a: 'b, T: ?Sized + for<'c> A<'c> + 'a + (B), const N: usize = 3>() -> impl A + use<'a, T> where U: C, 'a: 'b, for<'d> D<'d>: E {}
