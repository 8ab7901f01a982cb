fn test() {
    let foo: Option<f32> = None;
    while let Option::Some(spam) = foo {
        spam
    }
}
