fn f() { match a { #![cfg(x)] _ => {} } { #![cfg(x)] b } }
