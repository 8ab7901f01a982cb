fn f() { #[cfg(not())] a; #[cfg(zz(x))] b; #[cfg(all(c, zz(d)))] e; #[cfg] g; #[cfg(k = "v")] h }
