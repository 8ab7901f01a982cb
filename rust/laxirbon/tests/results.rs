//! Results that are kept in files: what the library writes for the repository's examples. Nothing is linked for these tests.

use laxirbon::{Body, Expr, ExprId, ExprOrPatId, FunctionSignature, LoweredPath, LoweredType, Name, Pat, Path, PathKind, Problem, TypeRef};

const ASYNC_FUNCTION: &str = include_str!("results/async_function.json");
const FOR_AND_QUESTION: &str = include_str!("results/for_and_question.json");
const GENERIC_FUNCTION: &str = include_str!("results/generic_function.json");
const QUALIFIED_PATH: &str = include_str!("results/qualified_path.json");
const FUNCTION_TYPE: &str = include_str!("results/function_type.json");
const OR_PATTERN: &str = include_str!("results/or_pattern.json");

#[test]
fn they_are_read_and_written_alike() {
    for text in [ASYNC_FUNCTION, FOR_AND_QUESTION, OR_PATTERN] {
        let body = Body::from_json(text).expect("a body");
        assert_eq!(body.to_json(), text);
        assert_eq!(Body::from_json(&body.to_json()).as_ref(), Ok(&body));
    }
    assert_eq!(FunctionSignature::from_json(GENERIC_FUNCTION).map(|signature| signature.to_json()).as_deref(), Ok(GENERIC_FUNCTION));
    assert_eq!(LoweredPath::from_json(QUALIFIED_PATH).map(|path| path.to_json()).as_deref(), Ok(QUALIFIED_PATH));
    assert_eq!(LoweredType::from_json(FUNCTION_TYPE).map(|ty| ty.to_json()).as_deref(), Ok(FUNCTION_TYPE));
}

/// `async fn f(self, (x, y): A) { x.await }`
#[test]
fn a_coroutine_owns_what_the_body_of_a_function_binds() {
    let body = Body::from_json(ASYNC_FUNCTION).expect("a body");
    let store = &body.store;
    let closure = |id: ExprId| matches!(store[id], Expr::Closure { .. });
    let coroutine = store.exprs().iter().map(|(id, _)| id).find(|id| closure(*id)).expect("a coroutine");
    let owned: Vec<&Name> =
        store.bindings().iter().filter(|(id, _)| store.binding_owner(*id) == Some(coroutine)).map(|(_, binding)| &binding.name).collect();
    assert_eq!(owned.iter().filter_map(|name| name.as_text()).collect::<Vec<_>>(), ["x", "y", "self"]);
    let [param] = body.params[..] else { panic!("one parameter beside self") };
    assert_ne!(param.formal, param.user_written);
    assert!(matches!(body[param.user_written], Pat::Tuple { .. }));
    let own = body.self_param.expect("self");
    assert_eq!(store[own.user_written].name.to_string(), "self");
    assert!(body.self_node.is_some());
}

/// `fn f() { for x in a { b(x)? } }`
#[test]
fn sources_lead_to_what_they_became() {
    let body = Body::from_json(FOR_AND_QUESTION).expect("a body");
    let mut walked = 0;
    body.store.walk_exprs(body.root_expr().expect("a root"), &mut |id| {
        walked += 1;
        let source = body.source_map.expr_syntax(id).expect("a source");
        let Some(ExprOrPatId::ExprId(first)) = body.source_map.node_expr(source) else { panic!("an expression") };
        assert!(body.source_map.expr_syntax(first) == Some(source));
    });
    assert_eq!(walked, body.store.exprs().len());
    for (id, pat) in body.store.pats().iter() {
        if let Some(source) = body.source_map.pat_syntax(id) {
            assert_eq!(body.source_map.node_pat(source), Some(id));
        }
        if let Pat::Bind { id: binding, .. } = pat {
            assert_eq!(body.source_map.patterns_for_binding(*binding), [id]);
        }
    }
}

/// `<Vec<T> as crate::Iter<'a>>::Item`
#[test]
fn a_path_has_its_arguments() {
    let lowered = LoweredPath::from_json(QUALIFIED_PATH).expect("a path");
    let Some(Path::Normal(path)) = &lowered.path else { panic!("a path with arguments") };
    assert_eq!(path.mod_path.kind, PathKind::Crate);
    assert_eq!(path.mod_path.segments.iter().filter_map(Name::as_text).collect::<Vec<_>>(), ["Iter", "Item"]);
    let Some(args) = &path.generic_args[0] else { panic!("arguments") };
    assert!(args.has_self_type && args.args.len() == 2);
}

/// `for<'a> unsafe extern "C" fn(&'a mut [T], ...) -> dyn A + 'a`
#[test]
fn a_type_names_others() {
    let lowered = LoweredType::from_json(FUNCTION_TYPE).expect("a type");
    let TypeRef::Fn(function) = &lowered.store[lowered.type_ref] else { panic!("a function pointer") };
    assert!(function.is_unsafe && function.is_varargs);
    assert_eq!(function.binder.as_deref(), Some(&[Name::Text("'a".to_owned())][..]));
    let Some((result, params)) = function.params.split_last() else { panic!("a result") };
    assert!(matches!(lowered.store[*result], TypeRef::DynTrait(_)));
    assert!(params.iter().any(|param| matches!(lowered.store[*param], TypeRef::Reference(_))));
}

#[test]
fn ids_past_the_end_are_told() {
    let text = FOR_AND_QUESTION.replace("\"callee\":1,", "\"callee\":25,");
    let error = Body::from_json(&text).expect_err("an id past the end");
    assert_eq!((error.problem, text.find("25,").map(|at| at <= error.offset)), (Problem::OutOfRange, Some(true)));
    assert!(Body::from_json(&FOR_AND_QUESTION.replace("\"callee\":1,", "\"callee\":24,")).is_ok());
}

/// Reading ends on every text, and all that is read can be walked.
#[test]
fn changed_texts_are_read_or_refused() {
    let mut read = 0;
    for place in 0..ASYNC_FUNCTION.len() {
        for byte in [b'9', b'"', b'\\', b']', b','] {
            let mut bytes = ASYNC_FUNCTION.as_bytes().to_vec();
            bytes[place] = byte;
            let Ok(body) = Body::from_json(&String::from_utf8(bytes).expect("text")) else { continue };
            read += 1;
            for (id, expr) in body.store.exprs().iter() {
                expr.for_each_child(|child| assert!(body.store.exprs().get(child).is_some()));
                let _ = (body.store.binding_owner(laxirbon::BindingId::from_raw(id.into_raw())), body.source_map.expr_syntax(id));
            }
            for (_, pat) in body.store.pats().iter() {
                pat.for_each_child(|child| assert!(body.store.pats().get(child).is_some()));
            }
        }
    }
    assert!(read > 0);
}

#[test]
fn a_walk_ends_if_an_entry_contains_itself() {
    let text = FOR_AND_QUESTION.replace("\"args\":[0],\"callee\":1,", "\"args\":[2,2],\"callee\":2,");
    let body = Body::from_json(&text).expect("a body");
    let mut walked = 0;
    body.store.walk_exprs(ExprId::from_raw(2), &mut |_| walked += 1);
    assert_eq!(walked, body.store.exprs().len());
}
