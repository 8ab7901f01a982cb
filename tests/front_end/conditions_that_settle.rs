fn f() { #[cfg(all(zz(x), no))] a; #[cfg(any(zz(x), all()))] b; #[cfg(not(any(zz(x), all())))] c; #[cfg(all(no, zz(x)))] d; e }
