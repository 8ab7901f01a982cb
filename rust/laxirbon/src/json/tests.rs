//! What is JSON and what isn't, and that reading ends on every text.

use super::{FromJson, Problem, Sizes, Tape, ToJson, Writer};

fn problem(text: &str) -> Option<(usize, Problem)> {
    Tape::new(text).err().map(|error| (error.offset, error.problem))
}

#[test]
fn json_is_read() {
    let texts = ["null", " true ", "[]", "[ ]", "{}", "{ }", "[1, 2]", "{\"a\": 1, \"b\": [{}]}", "0", "-0", "10.25e+3", "1E-2"];
    for text in texts {
        assert_eq!(problem(text), None, "{text}");
    }
    for text in [r#""""#, r#""a\"\\\/\b\f\n\r\tb""#, r#""\u00e9\ud83d\ude00""#, "\"\u{7f}\u{e9}\u{1f600}\""] {
        assert_eq!(problem(text), None, "{text}");
    }
}

#[test]
fn what_is_no_json_is_told_with_its_place() {
    let texts = [
        ("", 0),
        ("nul", 0),
        ("[1,]", 3),
        ("[1 2]", 3),
        ("[1", 2),
        ("{1: 2}", 1),
        ("{\"a\" 1}", 5),
        ("{\"a\": 1,}", 8),
        ("01", 1),
        ("1.", 2),
        ("1e", 2),
        ("-", 1),
        ("+1", 0),
        ("null null", 5),
        ("\"a", 2),
        ("\"\n\"", 1),
        ("\"\u{0}\"", 1),
        (r#""\x""#, 1),
        (r#""\u12g4""#, 1),
        (r#""\ud83d""#, 1),
        (r#""\ud83d\u0041""#, 1),
        (r#""\ude00""#, 1),
        ("\"\\u+041\"", 1),
        ("'a'", 0),
    ];
    for (text, offset) in texts {
        assert_eq!(problem(text), Some((offset, Problem::NotJson)), "{text}");
    }
}

#[test]
fn nesting_ends_after_127_levels() {
    assert_eq!(problem(&format!("{}{}", "[".repeat(127), "]".repeat(127))), None);
    assert_eq!(problem(&"[".repeat(128)), Some((127, Problem::TooDeep)));
    assert_eq!(problem(&"{\"a\":".repeat(200_000)), Some((635, Problem::TooDeep)));
}

#[test]
fn texts_lose_their_escapes() {
    let read = |text: &str| Tape::new(text).expect("JSON").root().as_str().map(|text| text.into_owned());
    assert_eq!(read("\"plain \u{e9}\""), Some("plain \u{e9}".to_owned()));
    assert_eq!(read(r#""a\"b\\\/c\n\u0041\u00e9\ud83d\ude00""#), Some("a\"b\\/c\nA\u{e9}\u{1f600}".to_owned()));
    assert_eq!(read("1"), None);
}

#[test]
fn numbers_are_whole_and_of_32_bits() {
    let read = |text: &str| u32::from_json(Tape::new(text).expect("JSON").root(), &Sizes::default()).ok();
    assert_eq!(read("0"), Some(0));
    assert_eq!(read("4294967295"), Some(u32::MAX));
    for text in ["4294967296", "18446744073709551616", "-1", "-0", "1.0", "1e0", "\"1\"", "true", "null"] {
        assert_eq!(read(text), None, "{text}");
    }
}

#[test]
fn members_are_found_by_name() {
    let text = r#"{"b": [1, {"a": 2}], "a": 3, "\u0063": 4, "d": 5, "d": 6}"#;
    let tape = Tape::new(text).expect("JSON");
    let number = |key| tape.root().member(key).map(|value| value.as_u32());
    assert_eq!(number("a"), Ok(Some(3)));
    assert_eq!(number("b"), Ok(None));
    assert_eq!(number("c"), Ok(Some(4)));
    assert_eq!(number("d"), Ok(Some(5)));
    assert_eq!(number("e").map_err(|error| error.problem), Err(Problem::Missing("e")));
    let inner = tape.root().member("b").and_then(|list| list.fixed::<2>());
    assert_eq!(inner.and_then(|[_, object]| object.member("a")).map(|value| value.as_u32()), Ok(Some(2)));
    assert!(tape.root().items().is_err());
    assert!(tape.root().member("a").and_then(|value| value.member("a")).is_err());
}

#[test]
fn lists_have_the_length_that_is_wanted() {
    let tape = Tape::new("[1, [2], 3]").expect("JSON");
    assert!(tape.root().fixed::<2>().is_err());
    assert!(tape.root().fixed::<3>().is_ok());
    assert!(tape.root().fixed::<4>().is_err());
}

#[test]
fn texts_are_written_as_the_library_writes_them() {
    let mut out = Writer::default();
    "\"\\/\u{8}\u{c}\n\r\t\u{1}\u{1f}\u{7f}\u{e9}\u{1f600}".to_owned().to_json(&mut out);
    assert_eq!(out.into_text(), "\"\\\"\\\\/\\b\\f\\n\\r\\t\\u0001\\u001f\u{7f}\u{e9}\u{1f600}\"");
}

#[test]
fn every_cut_and_every_changed_byte_ends() {
    let text = r#"{"a": [1, -2.5e3, "b\u00e9\n", {"c": null, "d": [true, false]}], "e": ""}"#;
    for end in 0..text.len() {
        assert!(Tape::new(&text[..end]).is_err());
    }
    for place in 0..text.len() {
        for byte in 0..0x80 {
            let mut bytes = text.as_bytes().to_vec();
            bytes[place] = byte;
            if let Ok(changed) = String::from_utf8(bytes) {
                if let Ok(tape) = Tape::new(&changed) {
                    let _ = tape.root().member("a").and_then(|value| value.fixed::<4>()).map(|parts| parts.map(|part| part.as_str()));
                }
            }
        }
    }
}
