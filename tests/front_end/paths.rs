fn f() { ::a::b; crate::c; self::super::d; <T>::e; <T as U<V>>::g; Self::h; a::<'b, C, 1, { d }, E = F, G: H>::i }
