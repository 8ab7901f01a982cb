fn f<'a>() { let s = "</script><b>&amp;</b>{{NAME}}"; 'a: loop { break 'a } /* <i> */ #[cfg(x)] g("<"); for x in y {} } // <u>
fn größe() -> R { 'ß: while let Some(x) = next()? { async { x.await; break 'b } } m!(a < b); (,) }
const C: &str = "日本";
