fn a() { self::super::A; A::super::B; A::self::B; crate::A::crate; crate::super::A; ::crate::A; ::self::A;
    ::super::A; <A>::B::<C>::D; <A as B::C<D>>::E::<F>::G; <A as self::B>::C; <A as super::B>::C; Self::A::<B>;
    Self::<A>::B; super::super::A; A::B::<>; A::<B,>::C; Self; self; super; crate; <A as B>; <A>; <A as B::<C>::D>::E;
    <<A as B>::C as D>::E; <<A>::B>::C; <(A, B)>::C; <[A; 3]>::D; <&A>::E; <dyn A + B>::C; <impl A>::B; <A
    as <B>::C>::D; <A as <B as C>::D>::E; A::<Self>::<B>; A::<'a, B, 3, C = D>::E; self::self::A;
    A::Self::B; Self::Self; self::crate::A; crate::self::A; super::self::A; super::crate::A;
    super::super; self::super; A::super; }
fn b(a: self::super::A, b: A::super::B, c: <A as B>, d: Fn(A) -> B, e: A::Fn(A), f: Fn() -> !, g: Fn(A, B,),
    h: A::Fn::(B)::C, i: A(..), j: A::f(..)::B, k: impl A(B) -> C + D, l: &(dyn Fn(A) -> B + 'a), m:
    Box<for<'a> fn(fn(&'a u8))>, n: for<'a> &'a u8, o: for<'a> (for<'b> fn(&'a &'b u8)), p: for<'a> [fn(&'a
    u8); 3], q: impl for<'a> A<'a>, r: impl ?Sized, s: impl 'static + use<'a, T>, t: dyn for<'a> A<'a, B =
    C> + ?D + '_, u: impl A<impl B>, v: impl A<B = impl C<D = impl E>>, w: &impl A, x: [impl A; { 3 }],
    y: fn(impl A) -> impl B, z: (impl A, impl B)) -> impl A<B = impl C> {}
fn c<T: A<impl B>, U = impl C, const N: impl D = 3>(a: impl A<[u8; { let x: impl B = 3; 4 }]>, b: <impl A
    as B>::C, c: <A as impl B>::C, d: A<{ impl }>, e: A<impl B, C = impl D, E: impl F, 'a>, f: Fn(impl A)
    -> impl B, g: impl Fn(impl A) -> impl B, h: impl Fn(&impl A)) where impl X: Y, T: Z<impl W>, for<'a>
    impl V: U {}
fn d<'a: 'b + 'c, 'b, T: 'a + 'static, U: ?Sized + ~const A, V: for<'x> B<'x> + use<'a>, const N: u8,
    const M: [u8; 3] = { [0; N] }>() where 'a: 'b + 'static, T:, for<> T: A, for<'x, 'y> &'x T: B<'y> + 'x,
    <T as A>::B: C, [T; N]: D, (T,): E {}
async fn e(a: impl A) -> impl B {} async fn f() -> Result<(), E> {} gen fn g() -> u8 {} async gen fn h()
    -> ! {} async unsafe extern "C" fn i<T>(x: T, ...) {}
impl X { fn a(self) {} fn b(&self) {} fn c(&mut self) {} fn d(mut self) {} fn e(&'a self) {} fn f(&'a
    mut self) {} fn g(self: Rc<Self>) {} fn h(mut self: &Self) {} fn i(#[cfg(no)] self, a: A) {} fn j(#[cfg(no)]
    &self) {} fn k(a: A, self) {} fn l(&self, #[cfg(no)] a: A, b: B) {} }
fn f(a: extern "C" fn(), b: extern fn(), c: unsafe fn(a: A, _: B, (c, d): C, mut e: D, ...) -> E,
    d: extern "foo" fn(), e: extern "system" fn(), f: extern "rust-call" fn(A) -> fn(B), g: fn(A) -> (),
    h: fn(), i: fn(...) , j: extern "C-unwind" fn(), k: extern "aapcs" fn(), l: extern "win64"
    fn(), m: extern "efiapi" fn(), n: extern "Rust" fn(), o: extern "" fn(), p:
    extern "msp430-interrupt" fn(), q: extern "ptx-kernel" fn(), r: extern "vectorcall"
    fn(), s: extern "cdecl-unwind" fn(), t: extern "x86-interrupt" fn(), u:
    extern "C-cmse-nonsecure-call" fn(), v: extern "unadjusted" fn(), w: extern
    "rust-cold" fn(), x: extern "rust-intrinsic" fn(), y: extern "gpu-kernel" fn(), z:
    extern "avr-interrupt" fn()) {}
fn g(a: [A; 3 + 4], b: [A; _], c: [A; {}], d: [A;], e: [A; x::y], f: [A; -1], g: A<-1>, h: A<{ x }>, i:
    A<"s">, j: A<true>, k: A<'c'>, l: [[A; B]; C], m: A<_>, n: A<x>, o: A<x::<y>>, p: A<[u8; 3]>, q: A<fn()
    -> B>, r: A<(B,)>, s: A<&'static str>, t: A<!>, u: !, v: _, w: (), x: (A), y: (A,), z: *mut *const
    A, aa: &'_ mut A, ab: &'static A, ac: m!(), ad: A<m!()>, ae: <m!() as A>::B) {}
