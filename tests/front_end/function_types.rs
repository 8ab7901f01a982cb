fn f(a: for<'a> unsafe extern "C" fn(&'a A, ...), b: extern fn(), c: impl Fn(A) -> B, d: impl A<fn(..): B>) {}
