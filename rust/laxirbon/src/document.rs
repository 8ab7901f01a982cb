//! Documents: what is lowered.

mod tree;

pub use tree::{Cell, DocumentBuilder, Node, Part};

use std::borrow::Cow;

/// A document: a syntax tree as a list of nodes and tables for an environment, as JSON (`docs/DOCUMENTS.md`). The library checks it.
#[derive(Clone, Debug, PartialEq, Eq)]
pub struct Document<'a> {
    bytes: Cow<'a, [u8]>,
}

impl<'a> Document<'a> {
    /// The document with this JSON.
    pub fn from_bytes(bytes: impl Into<Cow<'a, [u8]>>) -> Document<'a> {
        Document { bytes: bytes.into() }
    }

    /// The document of a tree, in an empty environment. [`DocumentBuilder`] makes others.
    pub fn from_tree(root: Node) -> Document<'static> {
        DocumentBuilder::new(root).build()
    }

    /// The JSON.
    pub fn as_bytes(&self) -> &[u8] {
        &self.bytes
    }
}

impl<'a> From<&'a str> for Document<'a> {
    fn from(text: &'a str) -> Document<'a> {
        Document::from_bytes(text.as_bytes())
    }
}

impl From<String> for Document<'_> {
    fn from(text: String) -> Self {
        Document::from_bytes(text.into_bytes())
    }
}
