//! The golden tests of the repository through the library: each listing is the program's, byte for byte, and each result is read and
//! written alike.
//!
//! `tests/golden/golden.py` unpacks them, so this needs Python 3.
#![cfg(feature = "library")]

use laxirbon::{Body, Document, Error, FunctionSignature, LoweredPath, LoweredType, Mode, ReadError, json, listing};
use std::fs;
use std::path::Path;
use std::process::Command;

/// A golden test that one of the program's modes answers.
struct Row {
    name: String,
    mode: Mode,
    document: Vec<u8>,
    output: Vec<u8>,
    error: Vec<u8>,
}

/// The golden tests, unpacked in a folder of this name.
fn rows(folder: &str) -> Vec<Row> {
    let top = Path::new(env!("CARGO_MANIFEST_DIR")).join("../..");
    let folder = Path::new(env!("CARGO_TARGET_TMPDIR")).join(folder);
    let _ = fs::remove_dir_all(&folder);
    let unpacked = Command::new("python3").arg("-B").arg(top.join("tests/golden/golden.py")).arg("unpack").arg(&folder).output();
    let unpacked = unpacked.expect("python3");
    assert!(unpacked.status.success(), "{}", String::from_utf8_lossy(&unpacked.stderr));
    let names = String::from_utf8(unpacked.stdout).expect("names");
    let rows: Vec<Row> = names.lines().filter_map(|name| row(&folder, name)).collect();
    assert!(rows.len() > 2000, "only {} rows", rows.len());
    fs::remove_dir_all(&folder).expect("the folder");
    rows
}

/// The golden test, unless it is one of words or of streams.
fn row(folder: &Path, name: &str) -> Option<Row> {
    let part = |ending: &str| fs::read(folder.join(format!("{name}.{ending}"))).ok();
    let mode = Mode::from_word(String::from_utf8(part("mode")?).ok()?.trim())?;
    if part("to").is_some() {
        return None;
    }
    let error = part("err").unwrap_or_default();
    Some(Row { name: name.to_owned(), mode, document: part("json")?, output: part("out")?, error })
}

/// What the program prints, on standard output and as errors.
fn program_output(result: Result<String, Error>) -> (String, String) {
    match result {
        Ok(text) => (text, String::new()),
        Err(error) => (String::new(), format!("{error}\n")),
    }
}

#[test]
fn listings_are_those_of_the_program() {
    let rows = rows("listings");
    for row in &rows {
        let (output, error) = program_output(listing(row.mode, &Document::from_bytes(&row.document)));
        assert_eq!(output.as_bytes(), row.output, "{}", row.name);
        assert_eq!(error.as_bytes(), row.error, "{}", row.name);
    }
    println!("{} listings are those of the program", rows.len());
}

/// Reads a result of this mode, and writes it again.
fn read_and_written(mode: Mode, text: &str) -> Result<String, ReadError> {
    match mode {
        Mode::Body | Mode::Pat => Body::from_json(text).map(|body| body.to_json()),
        Mode::Path => LoweredPath::from_json(text).map(|path| path.to_json()),
        Mode::Type => LoweredType::from_json(text).map(|ty| ty.to_json()),
        Mode::Fn => FunctionSignature::from_json(text).map(|signature| signature.to_json()),
    }
}

#[test]
fn results_are_read_and_written_alike() {
    let rows = rows("results");
    let mut count = 0;
    for row in &rows {
        match json(row.mode, &Document::from_bytes(&row.document)) {
            Ok(text) => {
                count += 1;
                let again = read_and_written(row.mode, &text).unwrap_or_else(|error| panic!("{}: {error}", row.name));
                assert!(again == text, "{}: {text} is written as {again}", row.name);
                assert!(row.error.is_empty(), "{}: a result", row.name);
            }
            Err(error) => assert_eq!(format!("{error}\n").as_bytes(), row.error, "{}", row.name),
        }
    }
    println!("{count} results are read and written alike");
}
