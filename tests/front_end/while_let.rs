fn f() { while let Some(a) = b { a } }
