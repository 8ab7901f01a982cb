fn f() { try { a? } }
