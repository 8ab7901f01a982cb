struct S<'a, T: U + ?Sized, const N: usize = 3>(&'a [T; N]) where T: V<W = X>;
