fn f() { let [a, &.., b] = c; let [.., d @ ..] = e; }
