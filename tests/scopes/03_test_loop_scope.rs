fn quux() {
    loop {
        let x = ();
        marker
    };
}