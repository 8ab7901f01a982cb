fn f() { builtin # asm("a") b }
