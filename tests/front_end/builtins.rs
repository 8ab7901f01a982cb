fn f(x: builtin # pattern_type(u8 is 1..=3)) { builtin # asm("a"); builtin # offset_of(A<u8>, b.0.c);
    match x { builtin # deref(y) => builtin # include_bytes("a"), !null => builtin # format_args("{}", x) } }
