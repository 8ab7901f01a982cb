fn foo(x: String) {
    let x : &str = &x;
}
