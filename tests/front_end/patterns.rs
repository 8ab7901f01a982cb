fn f() { match a { b @ (c, ..) | [d, e @ .., g] => {} &mut h | ref mut i => {} S::<T>(j, ..) => {} -1 | 'x'..='z' | ..5 => {}
    K => {} const { 1 } => {} m!() => {} } }
