fn f<T>() { let a: fn(x: T, y: u8, ...) -> u8 = A::<{ 3 }, 'a, -4, B = C, D: E + ?F>::g::<>; a.b::<u8,
    3>(b"x\n", c"y", 'z', 1.5e3, 1f32, "q\"\n", 0xffu8, 1foo); while x { y } while let A = b {} let x: [u8;
    3] = [0; 4];
 let _ = <X as Y<u8>>::Z; let _ = <X>::Z; let _: &dyn for<'a> F<'a> = ::a::b; let _: impl Fn(u8) ->
    u8; 'a: loop { break 'a 3 } const { 4 }; S { x: 3, y, ..z }; S { .. }; try { 3 }; move |x: u8, y|
    -> u8 { x }; async move { 3 }; unsafe { 4 } offset_of!(a, b); a - b; (a = b); match x { 1..=2 | -3
    => 4, ref mut x @ A { x, y: 3, .. } if z => { 1 } } r#match }
async fn g(a: u8, mut b: u8, (c, d): (u8, u8), ref e: u8) {}
