fn foo() {
    trait {}
    marker
}
