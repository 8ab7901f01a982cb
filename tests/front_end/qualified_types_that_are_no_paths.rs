fn f() { <T as &U>::a; <[T]>::b; <T as>::c; <>::d; <T as U, V>::e }
