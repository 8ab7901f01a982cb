fn f() { S { a, b: 1, self: c, 0: d, ..e }; S { .. }; let S { a, ref b, c: d, 0: e, box f, .. } = g; }
