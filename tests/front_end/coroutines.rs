fn f() { async gen { a }; gen { b }; gen move { c }; async gen move { d }; async move { e } }
