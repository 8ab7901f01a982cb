fn f() { { struct S; } macro_rules! m { () => {} } { macro n() {} { use a; } macro_rules! n { () => {} } } macro_rules! m { () => {} } }
