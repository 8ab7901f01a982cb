macro_rules! mac {
    () => {{
        fn inner() {}
        inner();
    }};
}

fn foo() {
    mac!();
    marker
}
