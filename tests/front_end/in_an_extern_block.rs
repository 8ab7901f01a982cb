extern "C" { fn f(a: B, mut c: D, ...); static S: T; }
