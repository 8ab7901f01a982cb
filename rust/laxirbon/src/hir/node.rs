//! Syntax nodes, by their files, numbers and ranges.

use crate::json::{FromJson, ReadError, Sizes, ToJson, Value, Writer, numbers};

/// A file, or what a macro call expands to. The document's own file is number 0.
#[derive(Clone, Copy, Debug, PartialEq, Eq, PartialOrd, Ord, Hash)]
pub struct HirFileId(pub u32);

/// The number of a node in its file. If a document doesn't give it, it is the node's index.
#[derive(Clone, Copy, Debug, PartialEq, Eq, PartialOrd, Ord, Hash)]
pub struct NodeId(pub u32);

numbers! { HirFileId, NodeId }

/// Where the text of a node begins and ends.
#[derive(Clone, Copy, Debug, PartialEq, Eq, PartialOrd, Ord, Hash)]
pub struct TextRange {
    pub start: u32,
    pub end: u32,
}

/// A syntax node without its tree.
#[derive(Clone, Copy, Debug, PartialEq, Eq, PartialOrd, Ord, Hash)]
pub struct AstPtr {
    pub node: NodeId,
    pub range: TextRange,
}

/// A value of a file.
#[derive(Clone, Copy, Debug, PartialEq, Eq, PartialOrd, Ord, Hash)]
pub struct InFile<T> {
    pub file_id: HirFileId,
    pub value: T,
}

impl<T> InFile<T> {
    pub fn new(file_id: HirFileId, value: T) -> InFile<T> {
        InFile { file_id, value }
    }
}

impl FromJson for TextRange {
    fn from_json(value: Value<'_>, sizes: &Sizes) -> Result<TextRange, ReadError> {
        let (start, end) = FromJson::from_json(value, sizes)?;
        Ok(TextRange { start, end })
    }
}

impl ToJson for TextRange {
    fn to_json(&self, out: &mut Writer) {
        (self.start, self.end).to_json(out);
    }
}

impl FromJson for InFile<NodeId> {
    fn from_json(value: Value<'_>, sizes: &Sizes) -> Result<InFile<NodeId>, ReadError> {
        let (file_id, value) = FromJson::from_json(value, sizes)?;
        Ok(InFile { file_id, value })
    }
}

impl ToJson for InFile<NodeId> {
    fn to_json(&self, out: &mut Writer) {
        (self.file_id, self.value).to_json(out);
    }
}

impl FromJson for InFile<AstPtr> {
    fn from_json(value: Value<'_>, sizes: &Sizes) -> Result<InFile<AstPtr>, ReadError> {
        let [file_id, node, start, end] = value.fixed()?;
        let range = TextRange { start: u32::from_json(start, sizes)?, end: u32::from_json(end, sizes)? };
        let pointer = AstPtr { node: NodeId::from_json(node, sizes)?, range };
        Ok(InFile::new(HirFileId::from_json(file_id, sizes)?, pointer))
    }
}

impl ToJson for InFile<AstPtr> {
    fn to_json(&self, out: &mut Writer) {
        let AstPtr { node, range } = self.value;
        vec![self.file_id.0, node.0, range.start, range.end].to_json(out);
    }
}
