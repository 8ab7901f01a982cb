fn f() where T: A<b(..): C>, T::d(..): E {}
