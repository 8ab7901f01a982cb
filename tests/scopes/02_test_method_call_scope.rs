fn quux() {
    z.f(|x| marker );
}