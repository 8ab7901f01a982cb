fn f() { |a, b: T| -> C { d }; move || yield; static || e; async move |f| g }
