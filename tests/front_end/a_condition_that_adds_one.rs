fn f() { #[cfg_attr(zz(x), cfg(y))] a; #[cfg_attr(not(y), cfg(y))] b; #[cfg_attr(y, cfg(y))] c }
