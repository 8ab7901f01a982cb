fn foo() {
    match Some(()) {
        opt @ Some(unit) => {
            marker
        }
        _ => {}
    }
}
