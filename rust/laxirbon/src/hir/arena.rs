//! Lists of entries that are referred to by typed ids.

use crate::json::{FromJson, Problem, ReadError, Sizes, ToJson, Value, Writer};
use std::cmp::Ordering;
use std::fmt;
use std::hash::{Hash, Hasher};
use std::marker::PhantomData;
use std::ops::Index;

/// The id of an entry of an [`Arena`]: its index there.
pub struct Idx<T> {
    raw: u32,
    entry: PhantomData<fn() -> T>,
}

impl<T> Idx<T> {
    /// The id of the entry with that index.
    pub fn from_raw(raw: u32) -> Idx<T> {
        Idx { raw, entry: PhantomData }
    }

    /// The index of the entry.
    pub fn into_raw(self) -> u32 {
        self.raw
    }

    fn index(self) -> usize {
        self.raw as usize
    }
}

// Derived ones would want the same of the entry.
impl<T> Clone for Idx<T> {
    fn clone(&self) -> Idx<T> {
        *self
    }
}

impl<T> Copy for Idx<T> {}

impl<T> PartialEq for Idx<T> {
    fn eq(&self, other: &Idx<T>) -> bool {
        self.raw == other.raw
    }
}

impl<T> Eq for Idx<T> {}

impl<T> PartialOrd for Idx<T> {
    fn partial_cmp(&self, other: &Idx<T>) -> Option<Ordering> {
        Some(self.cmp(other))
    }
}

impl<T> Ord for Idx<T> {
    fn cmp(&self, other: &Idx<T>) -> Ordering {
        self.raw.cmp(&other.raw)
    }
}

impl<T> Hash for Idx<T> {
    fn hash<H: Hasher>(&self, state: &mut H) {
        self.raw.hash(state);
    }
}

impl<T> fmt::Debug for Idx<T> {
    fn fmt(&self, f: &mut fmt::Formatter<'_>) -> fmt::Result {
        let path = std::any::type_name::<T>();
        let name = path.rsplit("::").next().unwrap_or(path);
        write!(f, "Idx::<{name}>({})", self.raw)
    }
}

/// What an arena of a store holds.
pub(crate) trait Entry {
    /// How many there are in the store that is being read.
    fn count(sizes: &Sizes) -> usize;
}

impl<T: Entry> FromJson for Idx<T> {
    fn from_json(value: Value<'_>, sizes: &Sizes) -> Result<Idx<T>, ReadError> {
        let id = Idx::from_raw(u32::from_json(value, sizes)?);
        if id.index() < T::count(sizes) { Ok(id) } else { Err(value.error(Problem::OutOfRange)) }
    }
}

impl<T> ToJson for Idx<T> {
    fn to_json(&self, out: &mut Writer) {
        self.raw.to_json(out);
    }
}

/// All entries of a kind, in the order of their ids.
#[derive(Clone, Debug, PartialEq, Eq)]
pub struct Arena<T> {
    entries: Vec<T>,
}

impl<T> Arena<T> {
    /// How many entries there are.
    pub fn len(&self) -> usize {
        self.entries.len()
    }

    /// Whether there is no entry.
    pub fn is_empty(&self) -> bool {
        self.entries.is_empty()
    }

    /// The entry, if there is one with that id.
    pub fn get(&self, id: Idx<T>) -> Option<&T> {
        self.entries.get(id.index())
    }

    /// The entries with their ids, in the order of these.
    pub fn iter(&self) -> impl DoubleEndedIterator<Item = (Idx<T>, &T)> + ExactSizeIterator {
        self.entries.iter().enumerate().map(|(index, entry)| (Idx::from_raw(index as u32), entry))
    }

    /// The entries without their ids, in the order of these.
    pub fn values(&self) -> std::slice::Iter<'_, T> {
        self.entries.iter()
    }
}

impl<T> Default for Arena<T> {
    fn default() -> Arena<T> {
        Arena { entries: Vec::new() }
    }
}

/// An id of another store may be past the end, which panics. An id of the same one isn't.
impl<T> Index<Idx<T>> for Arena<T> {
    type Output = T;

    fn index(&self, id: Idx<T>) -> &T {
        &self.entries[id.index()]
    }
}

impl<T: FromJson> FromJson for Arena<T> {
    fn from_json(value: Value<'_>, sizes: &Sizes) -> Result<Arena<T>, ReadError> {
        Ok(Arena { entries: Vec::from_json(value, sizes)? })
    }
}

impl<T: ToJson> ToJson for Arena<T> {
    fn to_json(&self, out: &mut Writer) {
        self.entries.to_json(out);
    }
}
