fn f() { while { a } { b } for c in { d } { e } }
