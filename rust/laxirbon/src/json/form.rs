//! The traits of what has a form in JSON, and the forms of numbers, texts and lists.

use super::{Members, ObjectMembers, Problem, ReadError, Value, Writer};

/// How many entries each arena of the store that is being read has, so that no id is past the end of its arena.
#[derive(Clone, Copy, Default)]
pub(crate) struct Sizes {
    pub(crate) exprs: usize,
    pub(crate) pats: usize,
    pub(crate) bindings: usize,
    pub(crate) labels: usize,
    pub(crate) types: usize,
    pub(crate) lifetimes: usize,
}

/// What can be read from JSON.
pub(crate) trait FromJson: Sized {
    fn from_json(value: Value<'_>, sizes: &Sizes) -> Result<Self, ReadError>;
}

/// What can be written as JSON.
pub(crate) trait ToJson {
    fn to_json(&self, out: &mut Writer);
}

/// What is an object, whose members may stand in a larger object, too.
pub(crate) trait Record: ToJson {
    fn members(&self) -> Members<'_>;
}

/// What has kinds, each with its words. An expression that is an array has two.
#[cfg(test)]
pub(crate) trait HasKinds {
    const KINDS: &[&[&str]];
}

impl ObjectMembers<'_> {
    /// What the member with this key is read as.
    pub(crate) fn read<T: FromJson>(&mut self, key: &'static str, sizes: &Sizes) -> Result<T, ReadError> {
        T::from_json(self.member(key)?, sizes)
    }
}

impl FromJson for bool {
    fn from_json(value: Value<'_>, _: &Sizes) -> Result<bool, ReadError> {
        value.as_bool().ok_or_else(|| value.error(Problem::Expected("true or false")))
    }
}

impl ToJson for bool {
    fn to_json(&self, out: &mut Writer) {
        out.plain(if *self { "true" } else { "false" });
    }
}

impl FromJson for u32 {
    fn from_json(value: Value<'_>, _: &Sizes) -> Result<u32, ReadError> {
        value.as_u32().ok_or_else(|| value.error(Problem::Expected("a number of 32 bits")))
    }
}

impl ToJson for u32 {
    fn to_json(&self, out: &mut Writer) {
        out.plain(&self.to_string());
    }
}

impl FromJson for String {
    fn from_json(value: Value<'_>, _: &Sizes) -> Result<String, ReadError> {
        let text = value.as_str().ok_or_else(|| value.error(Problem::Expected("a text")))?;
        Ok(text.into_owned())
    }
}

impl ToJson for String {
    fn to_json(&self, out: &mut Writer) {
        out.string(self);
    }
}

impl ToJson for &str {
    fn to_json(&self, out: &mut Writer) {
        out.string(self);
    }
}

impl<T: FromJson> FromJson for Option<T> {
    fn from_json(value: Value<'_>, sizes: &Sizes) -> Result<Option<T>, ReadError> {
        if value.is_null() { Ok(None) } else { T::from_json(value, sizes).map(Some) }
    }
}

impl<T: ToJson> ToJson for Option<T> {
    fn to_json(&self, out: &mut Writer) {
        match self {
            None => out.plain("null"),
            Some(value) => value.to_json(out),
        }
    }
}

impl<T: FromJson> FromJson for Vec<T> {
    fn from_json(value: Value<'_>, sizes: &Sizes) -> Result<Vec<T>, ReadError> {
        let items = value.items()?;
        let mut list = Vec::with_capacity(items.clone().count());
        for item in items {
            list.push(T::from_json(item, sizes)?);
        }
        Ok(list)
    }
}

impl<T: ToJson> ToJson for Vec<T> {
    fn to_json(&self, out: &mut Writer) {
        out.list(self.iter().map(|item| item as &dyn ToJson));
    }
}

impl<A: FromJson, B: FromJson> FromJson for (A, B) {
    fn from_json(value: Value<'_>, sizes: &Sizes) -> Result<(A, B), ReadError> {
        let [first, second] = value.fixed()?;
        Ok((A::from_json(first, sizes)?, B::from_json(second, sizes)?))
    }
}

impl<A: ToJson, B: ToJson> ToJson for (A, B) {
    fn to_json(&self, out: &mut Writer) {
        out.list([&self.0 as &dyn ToJson, &self.1]);
    }
}

/// The members of an object of a kind: its word stands beside what it holds, unless what it holds says it.
pub(crate) fn with_kind<'a>(word: &'a &'static str, mut members: Members<'a>) -> Members<'a> {
    if members.iter().all(|(key, _)| *key != "k") {
        members.push(("k", word));
    }
    members
}
