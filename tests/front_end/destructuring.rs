fn f() { (a, _, ..) = b; [c, .., d] = e; S { g, h: i, .. } = j; k += l; m() = n; }
