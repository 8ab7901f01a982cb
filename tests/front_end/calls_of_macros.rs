fn f() { m!(); a::m! {} let b = m![]; m!(c).d; m!() }
