//! That each form of docs/RESULT.md is read, and written alike, and that no kind and no word is missing on either side.

use super::path::{GenericArgs, ModPath};
use super::*;
use crate::json::{FromJson, HasKinds, Problem, ReadError, Sizes, Tape, ToJson, Writer};

const PAGE: &str = include_str!("../../../../docs/RESULT.md");

const STORE: &str =
    r#"{"binding_owners":[],"bindings":[],"exprs":[],"labels":[],"lifetimes":[],"pats":[],"roots":[],"types":[{"k":"Never"}]}"#;

const GENERIC_PARAMS: &str = r#"{"early_bound_lifetimes_len":0,"lifetimes":[],"type_or_consts":[],"where_predicates":[]}"#;

const ALL: Sizes = Sizes { exprs: 9, pats: 9, bindings: 9, labels: 9, types: 9, lifetimes: 9 };

/// What stands for `..` in an example, by the key in front of it.
const PARTS: &[(&str, &str)] = &[
    ("path", r#"{"k":"BarePath","kind":{"k":"Plain"},"segments":["x"]}"#),
    ("spread", r#"{"k":"None"}"#),
    ("kind", r#"{"k":"Plain"}"#),
    ("parent", r#"{"id":0,"k":"AdtId"}"#),
    ("bound", r#"{"k":"Error"}"#),
];

/// The examples of a form, by the name behind the title of the form.
fn examples(name: &str) -> Vec<String> {
    let title = format!("(`{name}`");
    let start = PAGE.lines().position(|line| line.starts_with("**") && line.contains(&title));
    let behind = PAGE.lines().skip(start.unwrap_or_else(|| panic!("no form {name}")));
    let block = behind.skip_while(|line| *line != "```text").skip(1).take_while(|line| *line != "```");
    block.map(|line| compact_text(&whole_example(line))).collect()
}

/// The example with a value in place of each `..`, but for those of a result.
fn whole_example(example: &str) -> String {
    let mut text = example.replace("[..]", "[]");
    if text.contains("UnresolvedMacroCall") {
        text = text.replace("\"path\": ..", r#""path": {"kind":{"k":"Plain"},"segments":["x"]}"#);
    }
    for (key, part) in PARTS {
        text = text.replace(&format!("\"{key}\": .."), &format!("\"{key}\": {part}"));
    }
    text
}

/// The text without spaces between its values.
fn compact_text(text: &str) -> String {
    let mut within = false;
    let keep = |character: &char| {
        within ^= *character == '"';
        within || *character != ' '
    };
    text.chars().filter(keep).collect()
}

fn read<T: FromJson>(text: &str) -> Result<T, ReadError> {
    T::from_json(Tape::new(text)?.root(), &ALL)
}

fn json_of(value: &impl ToJson) -> String {
    let mut out = Writer::default();
    value.to_json(&mut out);
    out.into_text()
}

/// Reads the examples of a form and writes them again.
fn check<T: FromJson + ToJson>(name: &str) -> Vec<String> {
    let examples = examples(name);
    assert!(!examples.is_empty(), "no example of {name}");
    for example in &examples {
        match read::<T>(example) {
            Ok(value) => assert_eq!(json_of(&value), *example, "{name}"),
            Err(error) => panic!("{name}: {example}: {error}"),
        }
    }
    examples
}

/// The word at `k`.
fn kind(example: &str) -> String {
    let tape = Tape::new(example).expect("JSON");
    let word = tape.root().member("k").ok().and_then(|word| word.as_str());
    word.expect("a kind").into_owned()
}

fn check_kinds<T: FromJson + ToJson + HasKinds>(name: &str) {
    let mut found: Vec<String> = check::<T>(name).iter().map(|example| kind(example)).collect();
    let mut known: Vec<String> = T::KINDS.concat().iter().map(|word| (*word).to_owned()).collect();
    found.sort_unstable();
    known.sort_unstable();
    assert_eq!(found, known, "{name}");
}

#[test]
fn objects_are_read_and_written() {
    check::<Label>("Label");
    check::<MatchArm>("MatchArm");
    check::<RecordLitField>("RecordLitField");
    check::<Binding>("Binding");
    check::<RecordFieldPat>("RecordFieldPat");
    check::<ModPath>("ModPath");
    check::<ExprRoot>("ExprRoot");
    check::<ExpandedCall>("ExpandedCall");
    check::<LifetimeParamData>("LifetimeParamData");
    check::<GenericParams>("GenericParams");
    check::<Param<PatId>>("Param");
}

#[test]
fn kinds_are_read_and_written_and_none_is_missing() {
    check_kinds::<Statement>("Statement");
    check_kinds::<RecordSpread>("RecordSpread");
    check_kinds::<Expr>("Expr");
    check_kinds::<Pat>("Pat");
    check_kinds::<LifetimeRef>("LifetimeRef");
    check_kinds::<GenericDefId>("GenericDefId");
    check_kinds::<TypeRef>("TypeRef");
    check_kinds::<PathKind>("PathKind");
    check_kinds::<GenericArg>("GenericArg");
    check_kinds::<UseArgRef>("UseArgRef");
    check_kinds::<TypeBound>("TypeBound");
    check_kinds::<Path>("Path");
    check_kinds::<ExpressionStoreDiagnostics>("ExpressionStoreDiagnostics");
    check_kinds::<TypeOrConstParamData>("TypeOrConstParamData");
    check_kinds::<WherePredicate>("WherePredicate");
}

/// The words of a type on the page.
fn words(name: &str) -> Vec<String> {
    let start = format!("- `{name}`: ");
    let from = PAGE.find(&start).unwrap_or_else(|| panic!("no words of {name}"));
    let rest = &PAGE[from + start.len()..];
    let end = rest.find("\n- `").unwrap_or(rest.len());
    rest[..end].split('"').skip(1).step_by(2).map(str::to_owned).collect()
}

macro_rules! check_words {
    ($($type:ident),* $(,)?) => {
        $(let mut known = Vec::new();
        for (word, value) in $type::WORDS {
            assert_eq!(read::<$type>(&format!("\"{word}\"")).as_ref(), Ok(value));
            assert_eq!(json_of(value), format!("\"{word}\""));
            known.push((*word).to_owned());
        }
        assert_eq!(words(stringify!($type)), known);
        assert!(read::<$type>("\"another\"").is_err());)*
    };
}

#[test]
fn words_are_read_and_written_and_none_is_missing() {
    check_words!(BindingAnnotation, BindingProblems, LiteralKind, UnaryOp, RangeOp, Mutability, Rawness, LoopSource, CaptureBy);
    check_words!(TraitBoundModifier, ExternAbi, GenericArgsParentheses, TypeParamProvenance, LifetimeBoundType, AwaitLocation);
    check_words!(MissingBodyItemKind, BinaryOp, ClosureKind);
}

#[test]
fn arguments_are_nested_by_their_places() {
    let start = PAGE.find("[{\"args\": [{\"k\": \"Type\", \"ty\": 1}]").expect("the example of arguments");
    let end = start + PAGE[start..].find("```").expect("its end");
    let example = compact_text(&PAGE[start..end].replace('\n', ""));
    let args: GenericArgs = read(&example).expect("arguments");
    assert_eq!(json_of(&args), example);
    let [binding] = args.bindings.as_slice() else { panic!("one binding") };
    assert_eq!(binding.name.as_text(), Some("B"));
    assert_eq!(binding.args.as_ref().map(|own| own.args.len()), Some(1));
}

fn entry(bindings: &str) -> String {
    format!(r#"{{"args":[],"bindings":[{bindings}],"has_self_type":false,"parenthesized":"No"}}"#)
}

fn binding(args: &str) -> String {
    format!(r#"{{"args":{args},"bounds":[],"name":"B","type_ref":null}}"#)
}

#[test]
fn arguments_that_name_others_are_named_once_each() {
    let none = entry("");
    let first = entry(&binding("0"));
    for text in [format!("[{none}]"), format!("[{none},{first}]"), format!("[{}]", entry(&binding("null")))] {
        assert_eq!(read::<GenericArgs>(&text).map(|args| json_of(&args)), Ok(text));
    }
    let twice = entry(&format!("{},{}", binding("0"), binding("0")));
    for text in ["[]".to_owned(), format!("[{none},{none}]"), format!("[{first}]"), format!("[{none},{twice}]")] {
        assert!(read::<GenericArgs>(&text).is_err(), "{text}");
    }
}

#[test]
fn arguments_nest_256_levels() {
    let nested = |levels: usize| {
        let mut entries = vec![entry("")];
        entries.extend((1..levels).map(|level| entry(&binding(&(level - 1).to_string()))));
        format!("[{}]", entries.join(","))
    };
    let text = nested(256);
    assert_eq!(read::<GenericArgs>(&text).map(|args| json_of(&args)), Ok(text));
    assert!(read::<GenericArgs>(&nested(257)).is_err());
}

#[test]
fn names_are_texts_numbers_or_missing() {
    for (text, name) in [("\"x\"", Name::Text("x".to_owned())), ("3", Name::Generated(3)), ("false", Name::Missing)] {
        assert_eq!(read::<Name>(text).as_ref(), Ok(&name));
        assert_eq!(json_of(&name), text);
    }
    for text in ["true", "null", "[]", "-1"] {
        assert!(read::<Name>(text).is_err(), "{text}");
    }
}

#[test]
fn ids_are_in_range() {
    assert!(read::<ExprId>("8").is_ok());
    assert_eq!(read::<ExprId>("9").map_err(|error| error.problem), Err(Problem::OutOfRange));
    let root = |end: u32| format!(r#"{{"bindings_end":0,"exprs_end":{end},"pats_end":0,"root":0}}"#);
    assert!(read::<ExprRoot>(&root(9)).is_ok());
    assert_eq!(read::<ExprRoot>(&root(10)).map_err(|error| error.problem), Err(Problem::OutOfRange));
}

/// The only example of a result.
fn result(name: &str) -> String {
    let map = json_of(&ExpressionStoreSourceMap::default());
    let parts = [("source_map", map.as_str()), ("store", STORE), ("generic_params", GENERIC_PARAMS)];
    let all = examples(name);
    let [example] = all.as_slice() else { panic!("one example of {name}") };
    parts.iter().fold(example.clone(), |text, (key, part)| text.replace(&format!("\"{key}\":.."), &format!("\"{key}\":{part}")))
}

#[test]
fn results_are_read_and_written() {
    let (body, ty, function) = (result("lower_body"), result("lower_type_ref"), result("lower_function"));
    assert_eq!(Body::from_json(&body).map(|body| body.to_json()), Ok(body));
    assert_eq!(LoweredType::from_json(&ty).map(|ty| ty.to_json()), Ok(ty));
    assert_eq!(FunctionSignature::from_json(&function).map(|function| function.to_json()), Ok(function));
}

#[test]
fn a_result_has_the_format_1() {
    let map = json_of(&ExpressionStoreSourceMap::default());
    let text = format!(r#"{{"format":1,"path":null,"source_map":{map},"store":{STORE}}}"#);
    assert_eq!(LoweredPath::from_json(&text).map(|path| path.to_json()), Ok(text.clone()));
    let problem = |text: &str| LoweredPath::from_json(text).map_err(|error| error.problem);
    assert_eq!(problem(&text.replace("\"format\":1", "\"format\":2")), Err(Problem::Format));
    assert_eq!(problem(&text.replace("\"format\":1,", "")), Err(Problem::Missing("format")));
    assert_eq!(problem(&text.replace("\"labels\":[],", "")), Err(Problem::Missing("labels")));
    assert_eq!(problem(&text.replace("\"path\":null", "\"path\":{\"item\":0}")), Err(Problem::Missing("k")));
    assert!(LoweredPath::from_json(&text.replace("\"path\":null", "\"later\":[{}],\"path\":null")).is_ok());
}
