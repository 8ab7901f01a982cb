async fn a() {}
async fn b<'a, T: 'a + ?Sized + for<'c> F<'c>, const N: usize = { 3 }, U = u8>(self: Box<Self>, x: impl
    A<B = impl C>, (a, b): &'a T, ...) -> impl Fn(u8) -> u8 where for<'b> T: A<'b> + B, 'a: 'b, for<'d>
    fn(&'d u8): X {}
gen fn c(&mut self, &'a self) -> u8 {}
fn d(x: [u8; 3 + 4], y: <A as B>::C, z: dyn A + 'static, w: *const u8, v: extern fn(u8), u: extern "C" fn(x:
    u8) -> !, t: unsafe extern "foo" fn(...), s: m!()) -> _ {}
pub(crate) unsafe extern "C" fn e(x: A<{ 3 }, 4, -5, B = C, D: E>) where {}
fn g(&'a mut self, x: impl use<'a, T> + A, y: A::B(..)) -> Self {}
