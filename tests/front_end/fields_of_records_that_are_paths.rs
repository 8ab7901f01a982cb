fn f() { S { a::<T>, b::c, self, ::d, <T>::e, g.h, 0 } }
