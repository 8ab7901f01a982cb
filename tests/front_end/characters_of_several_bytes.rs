fn f() { let größe = "日本\u{e9}é"; größe.länge('ß', b"a", c"é") /* 𝄞 */ + größe }
