fn f() -> R { 'a: for b in c? { continue 'a } }
