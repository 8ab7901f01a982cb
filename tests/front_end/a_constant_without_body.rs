const A: u8;
