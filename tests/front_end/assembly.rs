fn f() { builtin # asm("a"); b; builtin # asm("c") }
