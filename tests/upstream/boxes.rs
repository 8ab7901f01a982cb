fn a() { let a = #[rustc_box] Box::new(1); }
fn b() { let a = Box::new(2); f(Box::new(3), 4) }
