fn a() { (a, b) = c; (a, ..) = c; (.., a) = c; (a, .., b, ..) = c; ((a, ..), [b, ..]) = c; [.., a] = c; [a,
    b] = c; [] = c; () = c; (..) = c; ((..)) = c; (..,) = c; (a,) = c; (, a) = c; A = c; A::B = c; A() = c;
    A(..) = c; A(.., x) = c; A::<u8>(x, _) = c; <A>::B(x) = c; <A as B>::C(x) = c; (A)(x) = c; a.b(x) = c;
    a.b = c; a[0] = c; a[..] = c; *a = c; &a = c; &mut a = c; -a = c; A {} = c; A { a } = c; A { a, .. } =
    c; A { a: b, c: _, .. } = c; A { a, ..b } = c; A { a: (x, y), ..Default::default() } = c; A { #[cfg(no)]
    a, b } = c; (#[cfg(no)] a, b) = c; [#[cfg(no)] a, b] = c; A(#[cfg(no)] a, b) = c; _ = c; (_) = c; (_, _)
    = c; { a } = c; unsafe { a } = c; if a { b } else { c } = d; loop {} = c; match x {} = c; return =
    c; break = c; a = b = c; (a = b) = c; (a, b = c) = d; a += (b, c) = d; 1 = c; "s" = c; -1 = c; 1..2 = c;
    (1..2) = c; [1..2] = c; (a..) = c; (..a) = c; [..a] = c; [a..] = c; (a..=b, ..) = c; m!() = c; (m!(), ..)
    = c; A(m!()) = c; m!()(x) = c; A { a: m!() } = c; #[cfg(no)] a = c; (#[cfg(no)] a) = c; a as b = c;
    a? = c; a.await = c; |x| y = z; || (a, b) = c; async { a } = c; const { a } = c; [a; 3] = c; box a =
    c; let x = y = c; self = c; Self = c; Self(x) = c; Self { x } = c; crate = c; crate::a(x) = c; self.x =
    c; (a.b, c[0], *d, f()) = e; (f(g()), h) = e; [[a, ..], .., b] = c; S { x: [a, ..], y: (.., b), z: S2 {
    .. } } = c; (((a))) = c; ((a), (b)) = c; ((_), (..)) = c; A((..)) = c; [(..)] = c; }
fn b() { #[cfg(no)] a; #[cfg(no)] { a } #[cfg(no)] let x = y; let x = #[cfg(no)] y; f(#[cfg(no)] a, b);
    a.f(#[cfg(no)] b, c); [#[cfg(no)] a, b]; (#[cfg(no)] a, b); (#[cfg(no)] a); match x { #[cfg(no)] A =>
    1, B => #[cfg(no)] 2, C if #[cfg(no)] d => 3 } S { #[cfg(no)] a: b, c: #[cfg(no)] d, ..#[cfg(no)] e
    }; let S { #[cfg(no)] a, b, #[cfg(no)] .. } = x; |#[cfg(no)] a, b| #[cfg(no)] c; if #[cfg(no)] a
    { b } else #[cfg(no)] { c } while #[cfg(no)] a { b } for x in #[cfg(no)] a { b } return #[cfg(no)]
    a; break #[cfg(no)] a; &#[cfg(no)] a; -#[cfg(no)] a; (#[cfg(no)] a) + b; a[#[cfg(no)] b]; a..#[cfg(no)]
    b; x = #[cfg(no)] y; [#[cfg(no)] a; 3]; [a; #[cfg(no)] 3]; (#[cfg(no)] a).await; (#[cfg(no)] a)?; (#[cfg(no)]
    a) as b; (#[cfg(no)] f)(a); (#[cfg(no)] a).b; (#[cfg(no)] a).b(); async { #[cfg(no)] a }; const { #[cfg(no)]
    a }; if let x = #[cfg(no)] y {} #[cfg(no)] m!(); #[cfg(no)] m!{} #[cfg(all())] a; #[cfg(any())] a;
    #[cfg(not(any()))] b; #[cfg_attr(all(), cfg(no))] c; #[cfg_attr(no, cfg(no))] d; #[cfg(true)] e;
    #[cfg(false)] f; #[cfg(x = "y")] g; #[cfg()] h; #[cfg] i; #[cfg(no)] macro_rules! n { () => {} } #[cfg(no)]
    fn o() {} #[cfg(no)] struct P; #[cfg(no)] q }
fn c(#[cfg(no)] a: A, b: B, #[cfg(no)] (c, d): C) { fn x(#[cfg(no)] self) {} #[cfg(no)] return }
fn d<#[cfg(no)] T, #[cfg(no)] 'a, #[cfg(no)] const N: u8, U>(x: [u8; #[cfg(no)] 3], y: A<{ #[cfg(no)] 3 }>)
    {}
fn e() { a; b } fn f() { a } fn g() { a; } fn h() { if a {} } fn i() { if a {}; } fn j() { m!() } fn k() {
    m!{} } fn l() { m!(); } fn m() { a; m!() } fn n() { a; m!{} } fn o() { let x = 1; } fn p() { {} } fn q()
    { {}; } fn r() { #[cfg(no)] a } fn s() { b; #[cfg(no)] a } fn t() { {} #[cfg(no)] a } fn u() { fn x()
    {} } fn v() { {} fn x() {} } fn w() { {} struct S; } fn x() { loop {} m!{} } fn y() { loop {} m!() } fn
    z() { {} {} } fn aa() { ; } fn ab() { a;; } fn ac() { match x {} #[cfg(no)] m!() } fn ad() { loop {}
    ; } fn ae() { unsafe {} } fn af() { 'a: {} } fn ag() { async {} } fn ah() { {} #[cfg(no)] let x = 1;
    } fn ai() { {} #[cfg(no)] {} } fn aj() { m!{} {} } fn ak() { {} let x; } fn al() { m! {}.x } fn am() {
    m! {} .x; } fn an() { vec![] } fn ao() { x! [1] } fn ap() { x! [1]; }
fn f2() { 'a: loop { 'a: loop { break 'a } break 'a } 'b: for x in { break 'b } { continue 'b } 'c:
    while { break 'c } { continue 'c } 'd: { async { break 'd }; || break 'd; const { break 'd }; [0;
    { break 'd }]; let x: [u8; { break 'd }]; A::<{ break 'd }>; { break 'd } unsafe { break 'd } try
    { break 'd }; if break 'd {} loop { continue 'd } match x { _ if break 'd => {} _ => break 'd }
    } break 'd; 'e: if x {} 'f: match x {} 'g: unsafe { break 'g } 'h: async { break 'h } 'i: const
    { break 'i } 'j: try { break 'j } 'static: loop { break 'static } '_: loop { break '_ }
    break; continue; break 'x 3; 'k: loop { let 'k = 3; } }
