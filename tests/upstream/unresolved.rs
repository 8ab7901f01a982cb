fn c() { f(m!()); x.f(a::m!(), b); [m!(), b]; (m!(), b); S { a: m!(), b }; m!() + 1; -m!(); m!().x; m!()(1);
    m!()?; m!() as u8; &m!(); (m!()); let x = m!(); if m!() {} match m!() { m!() => m!() } loop { m!()
    } return m!(); || m!(); [m!(); m!()]; m!()..m!(); x[m!()]; async { m!() }; const { m!() }; let y: m!()
    = A::<m!(), { m!() }>::b; m!() }
fn d() { m!() = 1; (m!(), b) = c; [m!(), b] = c; A(m!(), b) = c; S { a: m!(), b } = c; (m!()) = 2; m!()(x)
    = 5; ((m!()), x) = 6; m!(); m!{} { m!() } let m!() = x; let m!(y): A; |m!()| z; for m!() in m!() {
    m!(); } while m!() { m!() } let S { a: m!() } = b; let [m!(), ..] = c; *m!() = 3; m!().a = 4; m!()[0] =
    5; m!() += 6; crate::m!(); self::m!{}; ::m!(); let _ = ::a::m!(); }
fn e(m!(): m!(), a: [u8; m!()]) -> m!() { m!{} }
