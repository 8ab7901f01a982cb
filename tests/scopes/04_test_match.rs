fn quux() {
    match () {
        Some(x) => {
            marker
        }
    };
}