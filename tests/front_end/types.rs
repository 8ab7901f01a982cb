fn f(a: &'a mut T, b: *const [u8; 3], c: (A, B), d: !, e: _, g: [T], h: dyn A + 'a, i: (dyn A), j: fn(x: A, B) -> C) {}
