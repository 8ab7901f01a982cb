#[rust_analyzer::skip] fn f(a: B) { c }
