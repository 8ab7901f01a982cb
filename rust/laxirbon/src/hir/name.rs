//! Names.

use crate::json::{FromJson, Problem, ReadError, Sizes, ToJson, Value, Writer};
use std::fmt;

/// A name as written, a missing one, or one that lowering made up.
#[derive(Clone, Debug, PartialEq, Eq, PartialOrd, Ord, Hash)]
pub enum Name {
    Text(String),
    Missing,
    Generated(u32),
}

impl Name {
    /// The text, if the name is written.
    pub fn as_text(&self) -> Option<&str> {
        match self {
            Name::Text(text) => Some(text),
            Name::Missing | Name::Generated(_) => None,
        }
    }
}

/// A missing name is `[missing name]` as upstream, and one that was made up `<ra@gennew>N`.
impl fmt::Display for Name {
    fn fmt(&self, f: &mut fmt::Formatter<'_>) -> fmt::Result {
        match self {
            Name::Text(text) => f.write_str(text),
            Name::Missing => f.write_str("[missing name]"),
            Name::Generated(number) => write!(f, "<ra@gennew>{number}"),
        }
    }
}

impl FromJson for Name {
    fn from_json(value: Value<'_>, sizes: &Sizes) -> Result<Name, ReadError> {
        if let Some(text) = value.as_str() {
            return Ok(Name::Text(text.into_owned()));
        }
        match value.as_bool() {
            Some(false) => Ok(Name::Missing),
            Some(true) => Err(value.error(Problem::Expected("a name"))),
            None => Ok(Name::Generated(u32::from_json(value, sizes)?)),
        }
    }
}

impl ToJson for Name {
    fn to_json(&self, out: &mut Writer) {
        match self {
            Name::Text(text) => out.string(text),
            Name::Missing => out.plain("false"),
            Name::Generated(number) => number.to_json(out),
        }
    }
}
