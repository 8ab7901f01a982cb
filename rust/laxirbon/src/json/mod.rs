//! JSON as results are written in it: a reader, a writer, and the traits of what has a form in it.

mod form;
mod kinds;
mod reader;
#[cfg(test)]
mod tests;
mod writer;

#[cfg(test)]
pub(crate) use form::HasKinds;
pub(crate) use form::{FromJson, Record, Sizes, ToJson, with_kind};
pub(crate) use kinds::{kinds, numbers, record, words};
pub(crate) use reader::{ObjectMembers, Tape, Value};
pub use reader::{Problem, ReadError};
pub(crate) use writer::{Members, Writer};
