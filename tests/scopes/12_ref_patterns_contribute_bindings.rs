fn foo() {
    if let Some(&from) = bar() {
        from;
    }
}
