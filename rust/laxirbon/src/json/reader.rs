//! A reader of JSON. One pass over the text lists its values one after another, and a [`Value`] is a place in that list.
//!
//! A text without escapes is lent, and the list takes 12 bytes for each value. So nothing is copied before it is known what it becomes.

use std::borrow::Cow;
use std::fmt;

/// How deep a text may nest, as the reader of the proved library has it.
const LEVELS: u32 = 127;

/// Why a text isn't a result.
#[derive(Clone, Copy, Debug, PartialEq, Eq)]
pub enum Problem {
    /// It isn't JSON.
    NotJson,
    /// It nests past 127 levels.
    TooDeep,
    /// It has 4 GiB or more.
    TooLong,
    /// Its `"format"` isn't the one that this crate reads.
    Format,
    /// An object lacks this member.
    Missing(&'static str),
    /// Something else than this stands there.
    Expected(&'static str),
    /// An id is past the end of the arena that it belongs to.
    OutOfRange,
}

/// A text isn't a result, and from which byte on it isn't.
#[derive(Clone, Copy, Debug, PartialEq, Eq)]
pub struct ReadError {
    pub offset: usize,
    pub problem: Problem,
}

impl fmt::Display for ReadError {
    fn fmt(&self, f: &mut fmt::Formatter<'_>) -> fmt::Result {
        match self.problem {
            Problem::NotJson => write!(f, "not JSON"),
            Problem::TooDeep => write!(f, "nested past {LEVELS} levels"),
            Problem::TooLong => write!(f, "4 GiB or more"),
            Problem::Format => write!(f, "another format"),
            Problem::Missing(key) => write!(f, "no member {key:?}"),
            Problem::Expected(what) => write!(f, "not {what}"),
            Problem::OutOfRange => write!(f, "an id past the end of its arena"),
        }?;
        write!(f, " at byte {}", self.offset)
    }
}

impl std::error::Error for ReadError {}

#[derive(Clone, Copy, Debug, PartialEq, Eq)]
enum Kind {
    Null,
    Bool,
    Number,
    /// A text without escapes.
    Plain,
    /// A text with escapes.
    Escaped,
    Array,
    Object,
}

/// A value of the list. The values in an array or an object follow it. A member of an object is two values, its key and what it has.
#[derive(Clone, Copy, Debug)]
struct Node {
    kind: Kind,
    /// Where it begins in the text.
    start: u32,
    /// Where it ends: in the list for an array and an object, in the text for others. The quote that ends a text isn't counted.
    end: u32,
}

/// All values of a text.
pub(crate) struct Tape<'t> {
    text: &'t str,
    nodes: Vec<Node>,
}

impl<'t> Tape<'t> {
    /// Reads a text.
    pub(crate) fn new(text: &'t str) -> Result<Tape<'t>, ReadError> {
        if u32::try_from(text.len()).is_err() {
            return Err(ReadError { offset: 0, problem: Problem::TooLong });
        }
        // Most values are numbers, keys or short texts: one takes 3 bytes and more.
        let nodes = Vec::with_capacity(text.len() / 3 + 1);
        let mut parser = Parser { bytes: text.as_bytes(), at: 0, nodes };
        parser.value(LEVELS)?;
        if parser.peek_behind_space().is_some() {
            return Err(parser.error(Problem::NotJson));
        }
        Ok(Tape { text, nodes: parser.nodes })
    }

    /// The value that the text is.
    pub(crate) fn root(&self) -> Value<'_> {
        Value { tape: self, at: 0 }
    }
}

struct Parser<'t> {
    bytes: &'t [u8],
    at: usize,
    nodes: Vec<Node>,
}

impl Parser<'_> {
    fn error(&self, problem: Problem) -> ReadError {
        ReadError { offset: self.at, problem }
    }

    fn peek(&self) -> Option<u8> {
        self.bytes.get(self.at).copied()
    }

    /// The next byte that is no space, which isn't taken.
    fn peek_behind_space(&mut self) -> Option<u8> {
        while let Some(b' ' | b'\t' | b'\n' | b'\r') = self.peek() {
            self.at += 1;
        }
        self.peek()
    }

    /// Takes this byte, if it is the next one.
    fn take(&mut self, byte: u8) -> bool {
        let found = self.peek() == Some(byte);
        self.at += usize::from(found);
        found
    }

    /// Takes this byte, which has to be the next one behind spaces.
    fn expect(&mut self, byte: u8) -> Result<(), ReadError> {
        self.peek_behind_space();
        if self.take(byte) { Ok(()) } else { Err(self.error(Problem::NotJson)) }
    }

    /// Adds a value that ends here. The numbers fit, since the text has fewer than 2^32 bytes.
    fn push(&mut self, kind: Kind, start: usize) {
        self.nodes.push(Node { kind, start: start as u32, end: self.at as u32 });
    }

    fn value(&mut self, levels: u32) -> Result<(), ReadError> {
        match self.peek_behind_space() {
            Some(b'{') => self.container(Kind::Object, b'}', levels),
            Some(b'[') => self.container(Kind::Array, b']', levels),
            Some(b'"') => self.string(),
            Some(b'-' | b'0'..=b'9') => self.number(),
            Some(b't') => self.word(b"true", Kind::Bool),
            Some(b'f') => self.word(b"false", Kind::Bool),
            Some(b'n') => self.word(b"null", Kind::Null),
            _ => Err(self.error(Problem::NotJson)),
        }
    }

    fn container(&mut self, kind: Kind, end: u8, levels: u32) -> Result<(), ReadError> {
        let Some(levels) = levels.checked_sub(1) else {
            return Err(self.error(Problem::TooDeep));
        };
        let place = self.nodes.len();
        self.push(kind, self.at);
        self.at += 1;
        if self.peek_behind_space() != Some(end) {
            self.parts(kind, end, levels)?;
        }
        self.at += 1;
        self.nodes[place].end = self.nodes.len() as u32;
        Ok(())
    }

    /// The values in an array or an object, up to the byte that ends it.
    fn parts(&mut self, kind: Kind, end: u8, levels: u32) -> Result<(), ReadError> {
        loop {
            if kind == Kind::Object {
                self.key()?;
            }
            self.value(levels)?;
            match self.peek_behind_space() {
                Some(b',') => self.at += 1,
                Some(byte) if byte == end => return Ok(()),
                _ => return Err(self.error(Problem::NotJson)),
            }
        }
    }

    fn key(&mut self) -> Result<(), ReadError> {
        if self.peek_behind_space() != Some(b'"') {
            return Err(self.error(Problem::NotJson));
        }
        self.string()?;
        self.expect(b':')
    }

    fn string(&mut self) -> Result<(), ReadError> {
        let start = self.at;
        let mut kind = Kind::Plain;
        self.at += 1;
        loop {
            let rest = &self.bytes[self.at..];
            self.at += rest.iter().position(|byte| matches!(byte, b'"' | b'\\' | 0..0x20)).unwrap_or(rest.len());
            match self.peek() {
                Some(b'"') => break,
                Some(b'\\') => {
                    kind = Kind::Escaped;
                    self.escape()?;
                }
                _ => return Err(self.error(Problem::NotJson)),
            }
        }
        self.push(kind, start);
        self.at += 1;
        Ok(())
    }

    /// An escape. A surrogate needs its other half.
    fn escape(&mut self) -> Result<(), ReadError> {
        match unescape(&self.bytes[self.at..]) {
            Some((_, length)) => {
                self.at += length;
                Ok(())
            }
            None => Err(self.error(Problem::NotJson)),
        }
    }

    fn word(&mut self, word: &[u8], kind: Kind) -> Result<(), ReadError> {
        if !self.bytes[self.at..].starts_with(word) {
            return Err(self.error(Problem::NotJson));
        }
        let start = self.at;
        self.at += word.len();
        self.push(kind, start);
        Ok(())
    }

    fn digits(&mut self) -> Result<(), ReadError> {
        let start = self.at;
        while matches!(self.peek(), Some(b'0'..=b'9')) {
            self.at += 1;
        }
        if self.at > start { Ok(()) } else { Err(self.error(Problem::NotJson)) }
    }

    fn number(&mut self) -> Result<(), ReadError> {
        let start = self.at;
        self.take(b'-');
        if !self.take(b'0') {
            self.digits()?;
        }
        if self.take(b'.') {
            self.digits()?;
        }
        if self.take(b'e') || self.take(b'E') {
            let _ = self.take(b'+') || self.take(b'-');
            self.digits()?;
        }
        self.push(Kind::Number, start);
        Ok(())
    }
}

/// The character of an escape, and how long the escape is.
fn unescape(text: &[u8]) -> Option<(char, usize)> {
    let character = match text.get(1)? {
        b'"' => '"',
        b'\\' => '\\',
        b'/' => '/',
        b'b' => '\u{8}',
        b'f' => '\u{c}',
        b'n' => '\n',
        b'r' => '\r',
        b't' => '\t',
        b'u' => return unescape_unicode(text),
        _ => return None,
    };
    Some((character, 2))
}

fn unescape_unicode(text: &[u8]) -> Option<(char, usize)> {
    let first = code_unit(text)?;
    if let Some(character) = char::from_u32(first) {
        return Some((character, 6));
    }
    let second = code_unit(text.get(6..)?)?;
    let mut pair = char::decode_utf16([first as u16, second as u16]);
    Some((pair.next()?.ok()?, 12))
}

/// The number in `\uXXXX`.
fn code_unit(text: &[u8]) -> Option<u32> {
    let digits = text.get(..6)?.strip_prefix(b"\\u")?;
    digits.iter().try_fold(0, |number, digit| Some(number * 16 + char::from(*digit).to_digit(16)?))
}

/// A value of a text.
#[derive(Clone, Copy)]
pub(crate) struct Value<'t> {
    tape: &'t Tape<'t>,
    at: u32,
}

impl<'t> Value<'t> {
    fn node(self) -> Node {
        self.tape.nodes[self.at as usize]
    }

    /// The error that something is wrong here.
    pub(crate) fn error(self, problem: Problem) -> ReadError {
        ReadError { offset: self.node().start as usize, problem }
    }

    pub(crate) fn is_null(self) -> bool {
        self.node().kind == Kind::Null
    }

    /// Its bytes in the text, if it is neither an array nor an object.
    fn bytes(self) -> &'t [u8] {
        let Node { start, end, .. } = self.node();
        &self.tape.text.as_bytes()[start as usize..end as usize]
    }

    pub(crate) fn as_bool(self) -> Option<bool> {
        (self.node().kind == Kind::Bool).then(|| self.bytes() == b"true")
    }

    /// The number that it is, if that is a whole one of 32 bits.
    pub(crate) fn as_u32(self) -> Option<u32> {
        if self.node().kind != Kind::Number {
            return None;
        }
        self.bytes().iter().try_fold(0_u32, |number, digit| {
            let digit = char::from(*digit).to_digit(10)?;
            number.checked_mul(10)?.checked_add(digit)
        })
    }

    /// The text that it is, without its escapes.
    pub(crate) fn as_str(self) -> Option<Cow<'t, str>> {
        let Node { kind, start, end } = self.node();
        let text = || &self.tape.text[start as usize + 1..end as usize];
        match kind {
            Kind::Plain => Some(Cow::Borrowed(text())),
            Kind::Escaped => Some(Cow::Owned(without_escapes(text()))),
            _ => None,
        }
    }

    /// Whether it is this text.
    fn is_text(self, text: &str) -> bool {
        match self.node().kind {
            Kind::Plain => &self.bytes()[1..] == text.as_bytes(),
            Kind::Escaped => self.as_str().as_deref() == Some(text),
            _ => false,
        }
    }

    /// The values that stand in it, if it is an array or an object.
    fn parts(self) -> Parts<'t> {
        Parts { tape: self.tape, next: self.at + 1, end: self.node().end }
    }

    /// The items of an array.
    pub(crate) fn items(self) -> Result<Parts<'t>, ReadError> {
        if self.node().kind == Kind::Array { Ok(self.parts()) } else { Err(self.error(Problem::Expected("a list"))) }
    }

    /// The items of an array that has to have so many.
    pub(crate) fn fixed<const N: usize>(self) -> Result<[Value<'t>; N], ReadError> {
        let mut items = self.items()?;
        let mut all = [self; N];
        let wrong = || self.error(Problem::Expected("a list of this length"));
        for place in &mut all {
            *place = items.next().ok_or_else(wrong)?;
        }
        if items.next().is_none() { Ok(all) } else { Err(wrong()) }
    }

    /// The members of an object.
    pub(crate) fn members(self) -> Result<ObjectMembers<'t>, ReadError> {
        if self.node().kind != Kind::Object {
            return Err(self.error(Problem::Expected("an object")));
        }
        Ok(ObjectMembers { object: self, left: self.parts() })
    }

    /// The member of an object with this key.
    pub(crate) fn member(self, key: &'static str) -> Result<Value<'t>, ReadError> {
        self.members()?.member(key)
    }
}

/// The members of an object, which has each key once. They are searched from the last one on that was found: a search takes one step if it
/// follows the order in which they are written.
pub(crate) struct ObjectMembers<'t> {
    object: Value<'t>,
    left: Parts<'t>,
}

impl<'t> ObjectMembers<'t> {
    /// The member with this key.
    pub(crate) fn member(&mut self, key: &'static str) -> Result<Value<'t>, ReadError> {
        if let Some(found) = self.next(key) {
            return Ok(found);
        }
        self.left = self.object.parts();
        self.next(key).ok_or_else(|| self.object.error(Problem::Missing(key)))
    }

    /// The next member with this key.
    fn next(&mut self, key: &str) -> Option<Value<'t>> {
        while let (Some(name), Some(value)) = (self.left.next(), self.left.next()) {
            if name.is_text(key) {
                return Some(value);
            }
        }
        None
    }
}

/// A text without its escapes.
fn without_escapes(text: &str) -> String {
    let mut left = text;
    let mut plain = String::with_capacity(text.len());
    while let Some(stop) = left.find('\\') {
        plain.push_str(&left[..stop]);
        left = &left[stop..];
        // The text was read, so each of its escapes is one.
        let Some((character, length)) = unescape(left.as_bytes()) else { break };
        plain.push(character);
        left = &left[length..];
    }
    plain + left
}

/// Values that stand one after another in an array or an object.
#[derive(Clone)]
pub(crate) struct Parts<'t> {
    tape: &'t Tape<'t>,
    next: u32,
    end: u32,
}

impl<'t> Iterator for Parts<'t> {
    type Item = Value<'t>;

    fn next(&mut self) -> Option<Value<'t>> {
        if self.next >= self.end {
            return None;
        }
        let part = Value { tape: self.tape, at: self.next };
        let Node { kind, end, .. } = part.node();
        self.next = if matches!(kind, Kind::Array | Kind::Object) { end } else { self.next + 1 };
        Some(part)
    }
}
