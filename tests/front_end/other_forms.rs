fn f() { become g(); do yeet h; &raw const i; &raw mut j; &mut k; l[m]; (n); do yeet; match o { (p) => {} A::B => {}
    q if r => {} _ if => {} box s => {} } }
