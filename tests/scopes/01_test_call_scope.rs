fn quux() {
    f(|x| marker );
}