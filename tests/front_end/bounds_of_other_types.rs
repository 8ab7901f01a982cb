fn f<T: for<'a> &'a U + B>() where T: for<'b> fn(&'b V) + (W) + ?(X), U: (for<'c> D<'c>) {}
