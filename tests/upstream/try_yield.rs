fn c1() { try { || a? } }
fn c2() { try { async || a? } }
fn c3() { try { async |x| { a? } } }
fn c4() { try { const { a? } } }
fn c5() { try { gen || a? } }
fn c6() { try { |x: [u8; a?]| -> [u8; b?] { c } } }
fn c7() { try bikeshed A<{ a? }> { b? } }
fn c8() { try { if x { try { a? } } else { b? } } }
fn d1() { static || { async move { yield } } } fn d2() { static || { async || yield } } fn d3() {
    static || { async |x: [u8; { yield }]| {} } } fn d4() { static |x: [u8; { yield 1 }]| {} } fn d5()
    { static || -> [u8; { yield 1 }] {} } fn d6() { static || { try { yield } } } fn d7() { static ||
    { match x { _ if yield => 1 } } } fn d8() { static || { S { a: yield } } } fn d9() { static move ||
    { if let [x] = yield {} } } fn d0() { static || { #[cfg(no)] yield; } }
fn e1() { async { || yield } } fn e2() { gen { static || { x } } } fn e3() { static || { let f =
    static || yield; } } fn e4() { static || { gen || yield } } fn e5() { static || { (.., yield) = x;
    } } fn e6() { static || { let [x, ..] = [yield; 3]; } } fn e7() { static || { for x in yield {}
    } } fn e8() { static || { while yield {} } } fn e9() { static || { (yield)? } }
