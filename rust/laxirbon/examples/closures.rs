//! Prints which names each closure of a file of Rust owns. Blocks with `async` or `gen` are closures, too.
//!
//!     cargo run --example closures FILE.rs
//!
//! `tools/rust_doc.py` makes a document of each body. It needs Python 3 and the parser of rust-analyzer (`docs/FRONT_END.md`).

use laxirbon::{Body, Document, Expr, ExprId, lower_body};
use std::error::Error;
use std::path::{Path, PathBuf};
use std::process::Command;
use std::{env, fs, process};

/// A folder that is removed in the end.
struct Folder(PathBuf);

impl Drop for Folder {
    fn drop(&mut self) {
        let _ = fs::remove_dir_all(&self.0);
    }
}

/// Makes the documents of a file in a folder, and lists their names.
fn documents(file: &str, folder: &Path) -> Result<Vec<String>, Box<dyn Error>> {
    let tool = Path::new(env!("CARGO_MANIFEST_DIR")).join("../../tools/rust_doc.py");
    let status = Command::new("python3").arg(tool).args([file, "--all"]).arg(folder).status()?;
    if !status.success() {
        return Err(format!("rust_doc.py ended with {status}").into());
    }
    let index = fs::read_to_string(folder.join("INDEX.tsv"))?;
    let named = |line: &str| line.split('\t').nth(1).unwrap_or("_").to_owned();
    Ok(index.lines().map(named).collect())
}

/// The line of a byte in a text, from 1.
fn line_of(text: &str, start: u32) -> usize {
    text.bytes().take(start as usize).filter(|byte| *byte == b'\n').count() + 1
}

/// The names that an expression owns, in the order in which they are bound.
fn names(body: &Body, owner: ExprId) -> Vec<String> {
    let store = &body.store;
    let owned = store.bindings().iter().filter(|(id, _)| store.binding_owner(*id) == Some(owner));
    owned.map(|(_, binding)| binding.name.to_string()).collect()
}

fn print_closures(item: &str, text: &str, body: &Body) {
    for (id, expr) in body.store.exprs().iter() {
        let Expr::Closure { closure_kind, .. } = expr else { continue };
        let place = match body.source_map.expr_syntax(id) {
            Some(node) => format!("line {}", line_of(text, node.value.range.start)),
            None => "no line".to_owned(),
        };
        let names = names(body, id);
        let owned = if names.is_empty() { "no name".to_owned() } else { names.join(", ") };
        println!("{item}, {place}: {} owns {owned}", closure_kind.as_str());
    }
}

fn main() -> Result<(), Box<dyn Error>> {
    let file = env::args().nth(1).ok_or("usage: closures FILE.rs")?;
    // The parser of the documents does the same, so their ranges fit.
    let text = fs::read_to_string(&file)?.replace("\r\n", "\n");
    let folder = Folder(env::temp_dir().join(format!("laxirbon-closures-{}", process::id())));
    for (number, item) in documents(&file, &folder.0)?.iter().enumerate() {
        let document = Document::from_bytes(fs::read(folder.0.join(format!("{number}.json")))?);
        match lower_body(&document) {
            Ok(body) => print_closures(item, &text, &body),
            Err(error) => eprintln!("{item}: {error}"),
        }
    }
    Ok(())
}
