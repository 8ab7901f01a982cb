fn f() { 'a: { break 'a }; unsafe { b }; 'c: unsafe { break 'c } }
