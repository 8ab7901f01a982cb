fn a(r#match: u8, r#foo: u8, r#gen: r#type) { r#match; x.r#type; x.r#in::<r#fn>(1); S { r#in: 1, r#if,
    r#foo }; let S { r#in, r#foo: r#while, r#for } = y; 'r#loop: loop { break 'r#loop; } 'r#foo:
    loop { break 'foo; } 'bar: loop { break 'r#bar; } r#async::r#dyn::A::<r#type = B, r#foo = C>; <r#A as r#B>::r#C;
    r#union; auto; default; macro_rules; union; raw; safe; r#raw; r#try!(); r#await; yeet; r#abstract;
    r#do; r#final; r#macro; r#override; r#priv; r#typeof; r#unsized; r#virtual; r#yield; r#box;
    r#become; r#static; r#Self2; async move { }; r#async; r#const; r#enum; r#extern; r#false; r#true;
    r#impl; r#mod; r#move; r#mut; r#pub; r#ref; r#return; r#struct; r#trait; r#unsafe; r#use; r#where;
    r#as; r#break; r#continue; r#else; r#let; r#fn }
fn b<'r#a, r#T: r#type>(x: &'r#a u8, y: &'a r#T) -> impl r#fn<'r#a> + use<'r#a, r#T> where 'r#a: 'b,
    'static: 'r#a {}
fn r#fn() { fn r#inner() {} r#fn() }
async fn c(r#match: u8, ref r#in: u8) {}
fn d() { x.0; x.0.1; x.1.0.2; x.00; x.0u8; x.1e3; x.0x1; (x.0).1; x.y.0(z); x.await.0; x?.0 .1; }
fn e() { "a
b"; "a\
   b"; r"a\n"; b"\x80"; c"é"; 'é'; '\u{7f}'; "\u{200b}"; "e\u{301}"; '\x7f';
    b'\\'; '\\'; '"'; "'"; b'"'; b"'"; "\u{10ffff}"; "😀"; "\0"; '\0'; "\x1b";
    "\u{ad}"; "ü"; "\u{2028}"; "\u{feff}"; "\u{e000}" }
fn f() { 0; 00; 0_0; 1__; 0b; 0x; 0o; 0b2; 0xg; 1e; 1e+; 1_e1; 1.e1; 1._; 0b1e1; 0x1e1;
    0x1f32; 0b1f32; 1f33; 1i7; 1usize; 1isize; 1i128; 0xffi8; -128i8; 1_u8; 0x_1; 0b_; 1e1_0f64;
    1.0_f32; 1.0f16; 2f128;
    1e308; 99999999999999999999999999999999999999999; 0xfffffffffffffffffffffffffffffffff; 1E5;
    0B1; 0X1; 1.5i8; 1__f32 }
