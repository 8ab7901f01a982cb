fn f() { ("a\n\u{41}\x41", r#"a\n"#, b"\xff", c"a\xff", 'a', '\'', b'a', "q"x) }
