fn a() { let (, .., x) = y; let A(, .., x) = y; (, .., x) = y; (, x) = y; A(, .., x) = y; let (, x) = y;
    }
fn b() { match x { -1.5 => 1, -2.5f32..=-1.0 => 2, -1u8 => 3, -"s" => 4, -1..=-2 => 5, -1u8..=2 => 6,
    -true => 7, -'c' => 8 } }
fn c() { try { [0; a?] }; try { A::<{ a? }>::b }; try { async { a? } }; try { async move { a? }; b? };
    try { gen { a? } }; try { let x: [u8; a?] = 3; }; try { || a? }; try { const { a? } }; try { async ||
    a? } }
fn d() { static || { gen { yield 1 } }; static || { async gen { yield 1 } }; static || { const { yield
    1 } }; static || { [0; { yield 1 }] }; static || { || yield 1 }; static || { let x: [u8; { yield 1
    }]; }; static || { A::<{ yield 1 }> }; static || { yield 1 }; static || { async { yield 1 } } }
fn e() { async { [0; x.await]; A::<{ x.await }>; let y: [u8; x.await]; const { x.await } } }
fn f() { 'a: loop { [0; { break 'a }]; A::<{ break 'a }>; let x: [u8; { break 'a }]; const { break 'a }
    } }
fn g() { self::super::A; self::super::super::B; use self::super::C; }
fn h() { (#[cfg(no)] a) = b; (#[cfg(no)] (a)) = b; #[cfg(no)] (a, b) = c; m!() = c; (#[cfg(no)] m!(), b)
    = c; [#[cfg(no)] .., a] = c; A { a: #[cfg(no)] b } = c; }
fn i() { x.await = 3; (x.await, y) = 4; f(x.await) = 5; A { a: x.await, ..y.await } = 6; x[y.await] =
    7; break 'q = 3; (break 'r, s) = 4; (break 't) = 5; [break 'u; 3] = 6; }
fn j() { while a {} while { a } {} while a && b {} while (let x = y) {} while !(let x = y) {} while a ||
    let x = y {} 'l: while break 'l {} while f(|| let x = y) {} while match a { _ if let b = c => d }
    {} while { let x = y; x } {} while { if let x = y { z } else { w } } {} while true {} while (a)
    {} while if let x = y { true } else { false } {} while a {  } }
fn k() { if let x | y = z {} let (x | y) = z; match a { (x, x) => 1, x | (x, y) => 2, ref x | x => 3, x @ x
    => 4 } |x, x| x; let (x, ref x) = y; }
