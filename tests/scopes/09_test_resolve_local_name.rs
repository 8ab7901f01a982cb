fn foo(x: i32, y: u32) {
    {
        let z = x * 2;
    }
    {
        let t = x * 3;
    }
}
