enum E { A = { b + 1 }, C }
