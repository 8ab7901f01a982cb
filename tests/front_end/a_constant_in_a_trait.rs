trait T { const A: u8; fn f(mut a: B, &c: D); }
