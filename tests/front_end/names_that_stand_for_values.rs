const K: u8 = 1; struct U; struct R {} fn f() { match a { K => {} U => {} R => {} None => {} b => {} } }
