fn r#fn() { r#match.r#type::<r#T>(); 'r#a: loop { break 'r#a } }
