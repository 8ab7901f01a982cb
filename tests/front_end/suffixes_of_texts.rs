fn f() { ('c'u32, b'b'x, "s"y, b"t"z, c"u"w, r"v"q) }
