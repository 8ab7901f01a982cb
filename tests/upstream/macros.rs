macro_rules! off { () => { #[cfg(no)] a } } macro_rules! on { () => { #[cfg(all())] a } } macro_rules! st {
    () => { x; #[cfg(no)] y; z } } macro_rules! off2 { () => { x; #[cfg(no)] y } } macro_rules! blk { ()
    => { {} #[cfg(no)] {} } } macro_rules! par { () => { (off!()) } }
macro_rules! lets { () => { let p = 1; #[cfg(no)] let q = 2; } } macro_rules! items { () => { fn i() {}
    #[cfg(no)] fn j() {} } } macro_rules! pt { () => { Some(x) } } macro_rules! rest { () => { ..
    } } macro_rules! un { () => { _ } } macro_rules! tup { () => { (a, ..) } } macro_rules! call { () => {
    A(x, ..) } } macro_rules! pth { () => { A::B } } macro_rules! arr { () => { [a, ..] } } macro_rules!
    rec { () => { S { a, .. } } }
fn a() { off!(); off!() }
fn b() { on!(); on!() }
fn c() { f(off!(), on!()); x.f(off!(), b); [off!(), b]; (off!(), b); S { a: off!(), b }; off!() + 1; -off!();
    off!().x; off!()(1); off!()?; off!() as u8; &off!(); (off!()); let x = off!(); if off!() {} match off!()
    { _ => off!() } loop { off!() } return off!(); || off!(); [off!(); off!()]; off!()..off!(); x[off!()];
    off!().await; async { off!() }; const { off!() }; par!(); f(par!()); }
fn d() { off!() = 1; (off!(), b) = c; [off!(), b] = c; A(off!(), b) = c; S { a: off!(), b } = c; off! {}
    = 1; (off!()) = 2; par!() = 3; (par!(), x) = 4; off!()(x) = 5; on!() = 6; (on!(), x) = 7; }
fn e() { st!() } fn g() { st!(); } fn h() { x; st!() } fn i() { off2!() } fn j() { off2!(); } fn k() {
    y; off2!() } fn l() { blk!() } fn m() { blk!{} } fn n() { {} off!() } fn o() { {} off!(); } fn p()
    { lets!(); p } fn q() { lets! {} items! {} items!(); i() } fn r() { let x = st!(); f(st!()); } fn s()
    { { st!() } } fn t() { if x { st!() } else { off2!() } } fn u() { match x { _ => st!() } } fn v() { ||
    st!(); }
fn w() { pth!()(x) = 1; pth!() = 2; (pth!(), ..) = 3; (rest!(), a) = 4; (a, rest!()) = 5; [a, rest!()] =
    6; [rest!(), a] = 7; A(rest!(), a) = 8; (rest!()) = 9; rest!() = 10; un!() = 11; (un!(), a) = 12;
    tup!() = 13; (tup!(), rest!(), ..) = 14; call!() = 15; arr!() = 16; rec!() = 17; S { a: tup!(), b:
    rest!(), c: un!() } = 18; [arr!(), rest!(), ..] = 19; A(tup!(), rest!(), ..) = 20; pth!() { a } = 21;
    (pth!())(x) = 22; }
fn x(pt!(): u8, (pt!(), y): u8) { let pt!() = 1; match x { pt!() => 2, pt!() | None => 3, (pt!(), ..) => 4,
    &pt!() => 5, x @ pt!() => 6, [pt!(), ..] => 7, S { a: pt!() } => 8, pth!() => 9, rest!() => 10, (rest!(),
    a) => 11, [a, rest!()] => 12, un!() => 13, 1..=pth!() => 14 } |pt!()| 1; for pt!() in x {} if let
    pt!() = x {} while let pt!() = x {} }
extern "C" { fn ext(un!(): u8, pt!(): u8, a: u8); }
