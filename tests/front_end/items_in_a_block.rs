fn f() { struct S; fn g() {} const C: u8 = 1; macro_rules! m { () => {} } macro_rules! m { () => {} } macro n() {} use a; }
