fn quux(foo: i32) {
    let f = |bar, baz: i32| {
        marker
    };
}