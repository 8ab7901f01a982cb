fn f() { #[cfg(x)] a.b().d + c; #[cfg(x)] d = e; #[cfg(x)] g as u8; #[cfg(x)] h..k; #[cfg(x)] l.m(); n }
