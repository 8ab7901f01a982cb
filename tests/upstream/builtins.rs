fn a() { builtin # asm("a"); builtin # offset_of(A<u8>, b.0.c); let x = builtin # offset_of(B, ); x }
fn b(x: builtin # pattern_type(u8 is 1..=3), y: builtin # pattern_type(A is B | 'c'..)) -> u8 { x as builtin # pattern_type(u8 is 4) }
fn c() { match x { builtin # deref(y) => 1, builtin # deref(Some(ref z) | z) => 2, !null => 3 } }
fn d() { builtin # include_bytes("a"); f(builtin # include_bytes(b)) }
fn e() { macro m() {} macro n { () => {} } macro_rules! o { () => {} } do yeet x; become f(); builtin # asm("a");
    loop { builtin # asm("b") } }
fn f() { builtin # format_args("{}", x) }
