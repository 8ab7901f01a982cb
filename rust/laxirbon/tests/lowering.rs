//! What is lowered: the store's accessors, the source map both ways, errors, and that a small stack is enough.
#![cfg(feature = "library")]

use laxirbon::{
    AstPtr, Cell, Document, DocumentBuilder, Error, Expr, ExprOrPatId, ExpressionStoreDiagnostics, HirFileId, InFile, Mode, Node, NodeId,
    Part, Pat, Path, TextRange, TypeRef, listing, lower_body, lower_fn, lower_pat, lower_path, lower_type,
};
use std::thread;

fn path(name: &str) -> Node {
    Node::new("Path").list("segs", [Node::new("PathSegment").text("seg", "name").text("name", name)])
}

fn path_expr(name: &str) -> Node {
    Node::new("PathExpr").part("path", path(name))
}

fn block(tail: Node) -> Node {
    Node::new("BlockExpr").part("tail", tail)
}

fn function(body: Node) -> Node {
    Node::new("Fn").part("body", body)
}

/// `|a, b| c`
fn closure() -> Node {
    let param = |name: &str| Node::new("Param").part("pat", Node::new("IdentPat").text("name", name));
    Node::new("ClosureExpr").list("params", [param("a"), param("b")]).part("body", path_expr("c"))
}

fn node(number: u32, start: u32, end: u32) -> InFile<AstPtr> {
    InFile::new(HirFileId(0), AstPtr { node: NodeId(number), range: TextRange { start, end } })
}

#[test]
fn a_closure_owns_its_parameters() {
    let body = lower_body(&Document::from_tree(function(block(closure())))).expect("a body");
    let closures: Vec<_> = body.store.exprs().iter().filter(|(_, expr)| matches!(expr, Expr::Closure { .. })).collect();
    let [(closure, Expr::Closure { args, body: inner, .. })] = closures[..] else { panic!("one closure") };
    let names: Vec<String> = body.store.bindings().values().map(|binding| binding.name.to_string()).collect();
    assert_eq!(names, ["a", "b"]);
    for (id, _) in body.store.bindings().iter() {
        assert_eq!(body.store.binding_owner(id), Some(closure));
        let [pat] = body.source_map.patterns_for_binding(id) else { panic!("one pattern") };
        assert!(args.contains(pat));
        let mut bound = Vec::new();
        body.store.walk_bindings_in_pat(*pat, |id| bound.push(id));
        assert_eq!(bound, [id]);
    }
    let mut walked = Vec::new();
    body.store.walk_exprs(body.root_expr().expect("a root"), &mut |id| walked.push(id));
    assert_eq!(walked.len(), body.store.exprs().len());
    assert_eq!(walked[1..], [closure, *inner]);
    assert!(matches!(&body.store[*inner], Expr::Path { path: Path::BarePath(path), .. } if path.segments[0].as_text() == Some("c")));
}

#[test]
fn the_source_map_leads_both_ways() {
    let call =
        Node::new("CallExpr").id(40).range(3, 9).part("expr", path_expr("f").id(41).range(3, 4)).list("args", [path_expr("x").id(42)]);
    let body = lower_body(&Document::from_tree(function(block(call)))).expect("a body");
    let Some(ExprOrPatId::ExprId(id)) = body.source_map.node_expr(node(40, 3, 9)) else { panic!("the call") };
    let Expr::Call { callee, args } = &body.store[id] else { panic!("a call") };
    assert_eq!(body.source_map.expr_syntax(id), Some(node(40, 3, 9)));
    assert_eq!(body.source_map.expr_syntax(*callee), Some(node(41, 3, 4)));
    assert_eq!(body.source_map.node_expr(node(42, 42, 43)), Some(ExprOrPatId::ExprId(args[0])));
    assert_eq!(body.source_map.node_expr(node(40, 3, 8)), None);
    for (id, _) in body.store.exprs().iter() {
        let syntax = body.source_map.expr_syntax(id).expect("a node");
        assert_eq!(body.source_map.node_expr(syntax), Some(ExprOrPatId::ExprId(id)));
    }
}

#[test]
fn what_is_assigned_to_is_a_pattern() {
    let target = Node::new("TupleExpr").id(20).list("fields", [path_expr("a"), path_expr("b")]);
    let assignment = Node::new("BinExpr").text("op", "=").part("lhs", target).part("rhs", path_expr("c"));
    let body = lower_body(&Document::from_tree(function(block(assignment)))).expect("a body");
    let Some(ExprOrPatId::PatId(id)) = body.source_map.node_expr(node(20, 20, 21)) else { panic!("a pattern") };
    assert!(matches!(&body.store[id], Pat::Tuple { args, .. } if args.len() == 2));
    let mut count = 0;
    body.store.walk_pats(id, &mut |_| count += 1);
    assert_eq!(count, 3);
}

#[test]
fn tables_answer_questions() {
    let statement = Node::new("ExprStmt").flag("semi", true).part("expr", path_expr("x").id(30));
    let body = Node::new("BlockExpr").id(31).list("stmts", [statement]).part("tail", path_expr("y").id(32));
    let document = DocumentBuilder::new(function(body))
        .set("sources", true)
        .row("disabled", [0.into(), 32.into(), 5.into()])
        .row("blocks", [0.into(), 31.into(), 3.into(), 1.into()])
        .build();
    let body = lower_body(&document).expect("a body");
    assert_eq!(body.source_map.block_scopes().iter().map(|block| block.0).collect::<Vec<_>>(), [3]);
    let [ExpressionStoreDiagnostics::InactiveCode { node: inactive, cfg }] = body.source_map.diagnostics() else { panic!("a diagnostic") };
    assert_eq!((*inactive, cfg.0), (node(32, 32, 33), 5));
    let text = listing(Mode::Body, &document).expect("a listing");
    assert_eq!(text, "body r0=(Block@31 - - b3 [(Semi (Path@30 x))] -)\ndiag InactiveCode 5 @32\n");
}

#[test]
fn expansions_are_entered() {
    let call = Node::new("MacroExpr").part("call", Node::new("MacroCall").id(9).part("path", path("m")));
    let expansion = Node::new("Literal").text("lit", "int").text("t", "7");
    let row = [0.into(), 9.into(), "file".into(), 1.into(), Cell::Tree(expansion)];
    let body = block(Node::new("ParenExpr").part("expr", call));
    let body = lower_body(&DocumentBuilder::new(function(body)).row("macros", row).build()).expect("a body");
    let [expanded] = body.source_map.expansions() else { panic!("an expansion") };
    assert_eq!(expanded.file, HirFileId(1));
    assert_eq!(body.source_map.expansion(expanded.call, expanded.range), Some(HirFileId(1)));
    assert!(body.store.exprs().values().any(|expr| matches!(expr, Expr::Literal(literal) if literal.text == "7")));
}

#[test]
fn each_mode_has_a_function() {
    let path = lower_path(&Document::from_tree(path("a"))).expect("a path");
    assert_eq!(path.path.as_ref().and_then(Path::mod_path).map(|path| path.segments.len()), Some(1));
    let ty = lower_type(&Document::from_tree(Node::new("SliceType").part("ty", Node::new("NeverType")))).expect("a type");
    let TypeRef::Slice(inner) = ty.store[ty.type_ref] else { panic!("a slice") };
    assert_eq!(ty.store[inner], TypeRef::Never);
    let none = lower_type(&DocumentBuilder::without_tree().build()).expect("no type");
    assert_eq!(none.store[none.type_ref], TypeRef::Error);
    let pat = lower_pat(&Document::from_tree(Node::new("WildcardPat"))).expect("a pattern");
    assert_eq!(pat.store[pat.params[0].formal], Pat::Wild);
    let generics = Node::new("GenericParamList").list("params", [Node::new("TypeParam").text("name", "T")]);
    let signature = lower_fn(&Document::from_tree(Node::new("Fn").part("generics", generics))).expect("a signature");
    assert_eq!(signature.generic_params.type_or_consts[0].name().and_then(|name| name.as_text()), Some("T"));
}

#[test]
fn errors_say_what_the_program_says() {
    let said = |document: &str| lower_body(&Document::from(document)).expect_err("an error").to_string();
    assert_eq!(said("{"), "fault: not JSON");
    assert_eq!(said(r#"{"nodes":[]}"#), "fault: no tree");
    assert_eq!(said(r#"{"nodes":[{"k":"Fun"}]}"#), "fault: root");
    let absent: [Part; 1] = [Part::from(None::<Node>)];
    let broken = Document::from_tree(Node::new("Fn").list("body", absent));
    assert!(matches!(lower_body(&broken), Err(Error::Fault(text)) if text == "node 0: field body"));
}

/// A function of nested blocks, so many levels deep.
fn nested_blocks(levels: usize) -> Document<'static> {
    Document::from_tree(function((2..levels).fold(Node::new("BlockExpr"), |inner, _| block(inner))))
}

#[test]
fn a_small_stack_is_enough() {
    let deepest = nested_blocks(256);
    let lowered = thread::Builder::new().stack_size(64 << 10).spawn(move || lower_body(&deepest)).expect("a thread").join();
    let body = lowered.expect("no panic").expect("a body");
    assert_eq!(body.store.exprs().len(), 255);
    assert!(matches!(lower_body(&nested_blocks(257)), Err(Error::Fault(text)) if text == "node 256: too deep"));
}

#[test]
fn many_threads_lower_at_once() {
    let document = Document::from_tree(function(block(closure())));
    let expected = listing(Mode::Body, &document).expect("a listing");
    thread::scope(|scope| {
        for _ in 0..8 {
            scope.spawn(|| {
                for _ in 0..20 {
                    assert_eq!(listing(Mode::Body, &document).as_ref().ok(), Some(&expected));
                }
            });
        }
    });
}

/// A function in which as many macro calls stand inside one another as may, each in blocks on as many levels as a tree may have.
fn nested_calls(calls: u32) -> Document<'static> {
    let call = |file: u32| {
        let call = Node::new("MacroCall").id(1000 + file).part("path", path("m"));
        Node::new("ParenExpr").part("expr", Node::new("MacroExpr").part("call", call))
    };
    let within = |blocks: usize, inner: Node| (0..blocks).fold(inner, |inner, _| block(inner));
    let mut document = DocumentBuilder::new(function(within(250, call(0)))).value("limit", calls);
    for file in 1..=calls {
        let inner = if file < calls { call(file) } else { Node::new("Literal").text("lit", "int").text("t", "7") };
        let row = [(file - 1).into(), (999 + file).into(), "file".into(), file.into(), Cell::Tree(within(251, inner))];
        document = document.row("macros", row);
    }
    document.build()
}

#[test]
fn nested_macro_calls_get_a_larger_stack() {
    let document = nested_calls(64);
    let body = lower_body(&document).expect("a body");
    assert_eq!(body.source_map.expansions().len(), 64);
    assert!(body.store.exprs().values().any(|expr| matches!(expr, Expr::Literal(literal) if literal.text == "7")));
}
