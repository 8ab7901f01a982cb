fn f() { #[x] -a; -#[x] a }
