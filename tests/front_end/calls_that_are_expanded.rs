fn f() { m!(); let n!() = k!(); let a: t!() = 1; m!() }
