fn f(#[cfg(a)] b: C, #[cfg(not(a))] d: E) { #[cfg(a)] let g = 1; #[cfg(any(a, b))] { h } k(#[cfg(all())] l, #[cfg(any())] m);
    match n { #[cfg(a)] o => {} #[cfg(b)] p => {} } S { #[cfg(a)] q: 1, #[cfg_attr(b, cfg(a))] r: 2 }; [#[cfg(a)] s, t]; #[cfg(a)] u }
