fn a() { let (a, b, ..); [a, .., b] = c; (..) = d; (a, .., b) = e; A(x, .., y) = z; S { x, y: A, .. } = w;
    _ = 1; *a.b[3] = c; { x } = y; m!() = z; (m!(), n!(), ..) = z; foo() = 3; self = x; A::B = c; ((a)) = b;
    [a; 3] = b; a += b; S = 3; (-1) = x; "x" = y; 1..=2 = z; &a = b; }
fn b() { match x { A | B | (C | D) => 1, | E => 2, &mut (ref x) => 3, box y => 4, [a, .., b] | [.., c @ ..]
    | [d @ .., e] | [] => 5, -1 | -1.5 | "s" | b's' | true => 6, 1.. | ..=2 | A..B | 'a'..='z' | -1..=-2 |
    A::B..=C::D | 0x7fu8..255 => 7, A {} | B { .. } | C { x: 1, ref y, mut z, box w } => 8, m!() => 9,
    const { 1 } => 10, A(..) | B(.., x) | C(x, ..) | (.., y) | (y,) | () => 11, a @ b @ c => 12, _ if let X
    = y && z => 13, !  }}
fn c() { 'a: while 'b: loop { break 'b true } { continue 'a } 'c: { break 'c } 'd: for x in 'e: {
    break 'e y } { break 'd } unsafe { 1 }; const { 2 }; async { 3 }; async move { x.await? }; gen
    { yield 1 }; async gen { yield 2 }; try { x? }; try bikeshed A<B> { y? }; || try { return z? }; }
fn d() { async |x, (y, z): A| -> B { x.await }; async move || 1; static || { yield 1 }; static move ||
    2; || yield; |x: impl A, &y, mut z, _| x; gen |x| yield x; move |x| { |y| y + x }; for<'a> |x: &'a u8|
    -> u8 { 1 }; }
fn e() { a..b; a..; ..b; ..; a..=b; ..=b; f(..); x[..]; (a..b)..c; return; return 1..2; break 3;
    become f(); do yeet; do yeet 4; &raw const x; &raw mut y; &mut *z; -!*w; a as u8 as u16; a = b = c; a <
    b; (a, ); (a, b); (); [a, b]; [a; b]; []; x.0.1.y; f::<u8>(x); x.f::<A, B = C>(y); S::<u8> { a: 1, b, ..c
    }; S { .. }; if let Some(x) = y && z || w {} else if q {} else { 1 } }
fn f() { let x: [u8; { let y = 3; y }] = z else { return }; let Some(a) | None = b; let ref mut c @ D; let
    _: fn(A, b: B, &C) -> D = e; let f: <A as B>::C<D> = <E>::F::<G>; let g: Box<dyn Fn(A, B) -> C
    + 'static> = h; let i: (A,) = j; let k: &'static mut [A] = l; let m: *const dyn A = n; let o: impl A
    = p; let q: A<'_, 'b, C, { 3 }, 4, -5, "x", true, D = E, F: G> = r; use a::b; fn inner()
    {} struct S; macro_rules! m { () => {} } m!(); ; ;; }
fn g(self: A, mut b: B, (c, d): C, ref e: D, _: E, F { g }: G, &h: I, m!(): J) {}
async fn h(self, mut b: B, (c, d): C, ref e: D, _: E, f @ g: G) { x.await }
async gen fn i(&mut self, a: A) { yield a }
gen fn j(&self) { yield 1 }
const K: u8 = { loop { break 1 } };
static L: u8 = || 3;
static mut M: u8;
enum N { A = 1 + 2, B = { 3 }, C(u8) = x.y(), D { a: u8 } = -4, }
extern "C" { fn o(a: u8, (b, c): D, mut e: F, _: G, ...); static P: u8; }
trait Q { fn r(a: u8, mut b: u8) { c } fn s(&self); const T: u8 = 3; const U: u8; }
fn v() { let s = "a\u{1F600}\0\t\x41\
   b\"c'"; let c = '\''; let d = '"'; let e =
    '\u{301}'; let f = b"\xff\0'\""; let g = c"a\xffb"; let h = r#"a"b\n"#; let i = br"\x";
    let j = cr"k"; 1_000; 0xFF_u8; 0b1010; 0o17; 1e3; 1.5E-3_f32;
    1f64;
    340282366920938463463374607431768211455;
    340282366920938463463374607431768211456;
    170141183460469231731687303715884105728; 1u128; 0xffff_ffff_ffff_ffff_ffff_ffff_ffff_ffff; 1.0; 2.; b'a'; '\n'; }
