//! Calls of the library.

use crate::ffi::{self, Form};
use crate::hir::{Body, FunctionSignature, LoweredPath, LoweredType};
use crate::{Document, Error};
use std::{str, thread};

/// What the root of a document is, and so what is lowered of it.
#[derive(Clone, Copy, Debug, PartialEq, Eq, Hash)]
pub enum Mode {
    /// The body of a function, constant, static or variant, with its parameters.
    Body,
    /// A path by itself.
    Path,
    /// A type by itself.
    Type,
    /// A pattern, as the only parameter of a function without body.
    Pat,
    /// The signature of a function.
    Fn,
}

impl Mode {
    /// The number that the library has for the mode.
    pub(crate) fn number(self) -> u32 {
        match self {
            Mode::Body => 0,
            Mode::Path => 1,
            Mode::Type => 2,
            Mode::Pat => 3,
            Mode::Fn => 4,
        }
    }

    /// The word that the program `lower_tool` has for the mode.
    pub fn word(self) -> &'static str {
        match self {
            Mode::Body => "body",
            Mode::Path => "path",
            Mode::Type => "type",
            Mode::Pat => "pat",
            Mode::Fn => "fn",
        }
    }

    /// The mode with this word.
    pub fn from_word(word: &str) -> Option<Mode> {
        [Mode::Body, Mode::Path, Mode::Type, Mode::Pat, Mode::Fn].into_iter().find(|mode| mode.word() == word)
    }
}

/// The stack that 256 levels take, and that of 64 macro calls inside one another with 256 levels each (`docs/lower_tool.md`). Both have a
/// reserve.
const STACK: usize = 5 << 18;
const STACK_OF_MACROS: usize = 32 << 20;

const OK: u32 = 0;
const FAULT: u32 = 2;
const REFUSED: u32 = 3;
const TOO_SHORT: u32 = 4;

/// How much stack a document may take. Only one with a table `macros` has nested macro calls. Its name may be written with escapes.
fn stack_for(document: &[u8]) -> usize {
    match str::from_utf8(document) {
        Ok(text) if text.contains("\"macros\"") || text.contains("\\u") => STACK_OF_MACROS,
        _ => STACK,
    }
}

/// Calls this with so much stack: here if there is enough, else in a thread of its own.
fn with_stack<T: Send>(size: usize, call: impl FnOnce() -> T + Send) -> Result<T, Error> {
    if ffi::stack_left().is_some_and(|left| left >= size) {
        return Ok(call());
    }
    thread::scope(|scope| {
        let thread = thread::Builder::new().name("laxirbon".to_owned()).stack_size(size).spawn_scoped(scope, call);
        match thread.map_err(Error::Thread)?.join() {
            Ok(done) => Ok(done),
            Err(panic) => std::panic::resume_unwind(panic),
        }
    })
}

/// Lowers with a buffer of this size first, and with a longer one if it was too short.
fn lower(form: Form, mode: Mode, document: &[u8], size: usize) -> (u32, Vec<u8>) {
    let mut out = vec![0; size];
    loop {
        let (status, needed) = ffi::lower(form, mode, document, &mut out);
        if status != TOO_SHORT || needed <= out.len() {
            out.truncate(needed);
            return (status, out);
        }
        out = vec![0; needed];
    }
}

/// What the library writes of a document.
fn text(form: Form, mode: Mode, document: &Document<'_>) -> Result<String, Error> {
    let bytes = document.as_bytes();
    // Most results are shorter, so they are lowered once.
    let size = match form {
        Form::Listing => 1024 + bytes.len(),
        Form::Json => 4096 + 4 * bytes.len(),
    };
    let (status, out) = with_stack(stack_for(bytes), || lower(form, mode, bytes, size))?;
    let text = String::from_utf8(out).map_err(|_| Error::Library(status))?;
    let said = |prefix| text.trim_end().strip_prefix(prefix).unwrap_or(&text).to_owned();
    match status {
        OK => Ok(text),
        FAULT => Err(Error::Fault(said("fault: "))),
        REFUSED => Err(Error::Refused(said("refused: "))),
        _ => Err(Error::Library(status)),
    }
}

/// The listing of what a document is lowered to, as the program `lower_tool` prints it (`docs/LISTING.md`).
pub fn listing(mode: Mode, document: &Document<'_>) -> Result<String, Error> {
    text(Form::Listing, mode, document)
}

/// The JSON of what a document is lowered to (`docs/RESULT.md`). The functions of the modes read it.
pub fn json(mode: Mode, document: &Document<'_>) -> Result<String, Error> {
    text(Form::Json, mode, document)
}

/// Lowers the body of an item with its parameters. The root of the document is a `Fn`.
pub fn lower_body(document: &Document<'_>) -> Result<Body, Error> {
    Ok(Body::from_json(&json(Mode::Body, document)?)?)
}

/// Lowers a path by itself. The root of the document is a `Path`.
pub fn lower_path(document: &Document<'_>) -> Result<LoweredPath, Error> {
    Ok(LoweredPath::from_json(&json(Mode::Path, document)?)?)
}

/// Lowers a type by itself. The root of the document is a type, or there is no node.
pub fn lower_type(document: &Document<'_>) -> Result<LoweredType, Error> {
    Ok(LoweredType::from_json(&json(Mode::Type, document)?)?)
}

/// Lowers a pattern, as the only parameter of a function without body. The root of the document is a pattern, or there is no node.
pub fn lower_pat(document: &Document<'_>) -> Result<Body, Error> {
    Ok(Body::from_json(&json(Mode::Pat, document)?)?)
}

/// Lowers the signature of a function: its generic parameters, and the types of its parameters and its result. The root of the document is
/// a `Fn`.
pub fn lower_fn(document: &Document<'_>) -> Result<FunctionSignature, Error> {
    Ok(FunctionSignature::from_json(&json(Mode::Fn, document)?)?)
}
