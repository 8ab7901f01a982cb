fn f<T: m!>() {}
