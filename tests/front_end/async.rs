async fn f((a, b): C, mut d: E) { async move { d }.await; async |x| x }
