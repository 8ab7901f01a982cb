fn f() { let Some(a) = b else { return }; }
