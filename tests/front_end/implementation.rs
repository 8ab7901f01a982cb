impl<T> A<T> for fn(T) -> [u8; { 1 + 2 }] where T: B { fn f(&mut self, #[cfg(x)] a: C) -> impl D<T> + use<T> { self.g() } }
