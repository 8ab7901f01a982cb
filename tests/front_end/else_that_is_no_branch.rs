fn f() { if a {} else b; if c {} else match d {} if e {} { g } else { h } }
