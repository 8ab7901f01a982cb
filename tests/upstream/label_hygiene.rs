macro_rules! out { () => { break 'a }; ($l:lifetime) => { break $l }; (l $l:lifetime $e:expr) => { $l: loop
    { $e } }; (own $e:expr) => { 'a: loop { $e } } }
fn a() { 'a: loop { macro_rules! m { () => { break 'a } } m!(); } }
fn b() { 'a: loop { out!(); } }
fn c() { 'a: loop { out!('a); } }
fn d() { out!(l 'a break 'a); }
fn e() { out!(own break 'a); }
fn f() { 'a: loop { out!(own break 'a); } }
fn g() { 'a: loop { { macro_rules! m { () => { break 'a } } } 'a: loop { m!(); } } }
fn h() { 'a: loop { macro_rules! m { () => { break 'a } } 'a: loop { m!(); } } }
fn i() { macro_rules! m { () => { break 'a } } 'a: loop { m!(); } }
fn j() { 'a: loop { macro_rules! m { ($e:expr) => { 'a: loop { $e } } } m!(break 'a); } }
fn k() { 'a: loop { macro_rules! m { () => { 'a: loop { break 'a } } } m!(); } }
fn l() { 'a: loop { macro_rules! m { () => { n!() } } macro_rules! n { () => { break 'a } } m!(); } }
fn m() { 'a: loop { macro_rules! n { () => { break 'a } } || { n!() }; } }
fn n() { 'a: loop { { macro_rules! m { () => { break 'a } } m!(); } { macro_rules! m { () => { continue 'a
    } } m!(); } } }
fn o() { let x = 1; macro_rules! m { ($p:pat) => { match x { $p => 2, y => y } } } m!(y); m!(x); }
