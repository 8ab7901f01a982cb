//! Documents that are made of a tree.

use super::Document;
use crate::hir::TextRange;
use crate::json::{ToJson, Writer};

/// A syntax node: its kind, and its fields by their names, as `docs/DOCUMENTS.md` lists them. Fields that don't fit the kind are errors
/// when the document is lowered.
///
/// ```
/// use laxirbon::{Document, Node};
///
/// let path = Node::new("Path").list("segs", [Node::new("PathSegment").text("seg", "name").text("name", "x")]);
/// let body = Node::new("BlockExpr").part("tail", Node::new("PathExpr").part("path", path));
/// let document = Document::from_tree(Node::new("Fn").part("body", body));
/// ```
#[derive(Clone, Debug, PartialEq, Eq)]
pub struct Node {
    kind: &'static str,
    id: Option<u32>,
    range: Option<TextRange>,
    fields: Vec<(&'static str, Field)>,
}

#[derive(Clone, Debug, PartialEq, Eq)]
enum Field {
    Flag(bool),
    Number(u32),
    Text(String),
    Part(Node),
    List(Vec<Part>),
}

/// An item of a list: a node, a name or a lifetime as a text, or one that is absent.
#[derive(Clone, Debug, PartialEq, Eq)]
pub enum Part {
    Node(Node),
    Text(String),
    Absent,
}

impl From<Node> for Part {
    fn from(node: Node) -> Part {
        Part::Node(node)
    }
}

impl From<&str> for Part {
    fn from(text: &str) -> Part {
        Part::Text(text.to_owned())
    }
}

impl<T: Into<Part>> From<Option<T>> for Part {
    fn from(part: Option<T>) -> Part {
        part.map_or(Part::Absent, T::into)
    }
}

impl Node {
    /// A node of this kind without fields.
    pub fn new(kind: &'static str) -> Node {
        Node { kind, id: None, range: None, fields: Vec::new() }
    }

    /// Its number, by which the source map and the tables of the environment know it. Without one it is the index in the document: the root
    /// is 0, and each node comes before its parts and behind those of the parts before it.
    pub fn id(mut self, id: u32) -> Node {
        self.id = Some(id);
        self
    }

    /// Where its text begins and ends.
    pub fn range(mut self, start: u32, end: u32) -> Node {
        self.range = Some(TextRange { start, end });
        self
    }

    fn field(mut self, name: &'static str, field: Field) -> Node {
        self.fields.push((name, field));
        self
    }

    pub fn flag(self, name: &'static str, value: bool) -> Node {
        self.field(name, Field::Flag(value))
    }

    pub fn number(self, name: &'static str, value: u32) -> Node {
        self.field(name, Field::Number(value))
    }

    /// A word, a literal's text, or a name or a lifetime in place of a node.
    pub fn text(self, name: &'static str, value: impl Into<String>) -> Node {
        self.field(name, Field::Text(value.into()))
    }

    pub fn part(self, name: &'static str, value: Node) -> Node {
        self.field(name, Field::Part(value))
    }

    pub fn list<T: Into<Part>>(self, name: &'static str, parts: impl IntoIterator<Item = T>) -> Node {
        self.field(name, Field::List(parts.into_iter().map(T::into).collect()))
    }
}

/// A value in a row of a table.
#[derive(Clone, Debug, PartialEq, Eq)]
pub enum Cell {
    Null,
    Flag(bool),
    Number(u32),
    Text(String),
    List(Vec<Cell>),
    /// A tree, whose index stands in the row: an expansion, or a type alias.
    Tree(Node),
}

impl From<bool> for Cell {
    fn from(flag: bool) -> Cell {
        Cell::Flag(flag)
    }
}

impl From<u32> for Cell {
    fn from(number: u32) -> Cell {
        Cell::Number(number)
    }
}

impl From<&str> for Cell {
    fn from(text: &str) -> Cell {
        Cell::Text(text.to_owned())
    }
}

impl From<Node> for Cell {
    fn from(node: Node) -> Cell {
        Cell::Tree(node)
    }
}

/// Makes a document of a tree and of what the environment answers.
///
/// ```
/// use laxirbon::{DocumentBuilder, Node};
///
/// let body = Node::new("BlockExpr").id(7);
/// let document = DocumentBuilder::new(Node::new("Fn").part("body", body))
///     .set("owner", "static")
///     .row("disabled", [0.into(), 7.into(), 5.into()])
///     .build();
/// ```
#[derive(Clone, Debug, Default)]
pub struct DocumentBuilder {
    root: Option<Node>,
    members: Vec<(&'static str, Cell)>,
    values: Vec<(&'static str, Cell)>,
    lang: Vec<(&'static str, Cell)>,
    tables: Vec<(&'static str, Vec<Vec<Cell>>)>,
}

impl DocumentBuilder {
    pub fn new(root: Node) -> DocumentBuilder {
        DocumentBuilder { root: Some(root), ..DocumentBuilder::default() }
    }

    /// A document without nodes, which modes `type` and `pat` take.
    pub fn without_tree() -> DocumentBuilder {
        DocumentBuilder::default()
    }

    /// A member of the document: `owner`, `container`, `skip`, `sources` or `analysis`.
    pub fn set(mut self, member: &'static str, value: impl Into<Cell>) -> DocumentBuilder {
        self.members.push((member, value.into()));
        self
    }

    /// A value of the environment: `limit` or `new_range`.
    pub fn value(mut self, name: &'static str, value: impl Into<Cell>) -> DocumentBuilder {
        self.values.push((name, value.into()));
        self
    }

    /// The number of a lang item, or that there is none.
    pub fn lang(mut self, name: &'static str, item: Option<u32>) -> DocumentBuilder {
        self.lang.push((name, item.map_or(Cell::Null, Cell::Number)));
        self
    }

    /// A row of a table of the environment.
    pub fn row(mut self, table: &'static str, row: impl IntoIterator<Item = Cell>) -> DocumentBuilder {
        let row = row.into_iter().collect();
        match self.tables.iter_mut().find(|(name, _)| *name == table) {
            Some((_, rows)) => rows.push(row),
            None => self.tables.push((table, vec![row])),
        }
        self
    }

    pub fn build(self) -> Document<'static> {
        let mut nodes = Nodes::default();
        if let Some(root) = &self.root {
            nodes.index_of(root);
        }
        let mut env = Vec::new();
        for (name, value) in &self.values {
            env.push((*name, nodes.cell(value)));
        }
        for (name, rows) in &self.tables {
            let rows: Vec<String> = rows.iter().map(|row| nodes.cells(row)).collect();
            env.push((*name, format!("[{}]", rows.join(","))));
        }
        if !self.lang.is_empty() {
            let items: Vec<_> = self.lang.iter().map(|(name, item)| (*name, nodes.cell(item))).collect();
            env.push(("lang", object(&items)));
        }
        let mut members: Vec<_> = self.members.iter().map(|(name, value)| (*name, nodes.cell(value))).collect();
        members.push(("env", object(&env)));
        members.push(("nodes", format!("[{}]", nodes.texts.join(","))));
        Document::from(object(&members))
    }
}

/// The nodes of a document, each as JSON.
#[derive(Default)]
struct Nodes {
    texts: Vec<String>,
}

impl Nodes {
    /// Adds a tree. A part comes behind its whole.
    fn index_of(&mut self, node: &Node) -> String {
        let index = self.texts.len();
        self.texts.push(String::new());
        let mut members = vec![("k", json(&node.kind))];
        members.extend(node.id.map(|id| ("id", json(&id))));
        members.extend(node.range.map(|range| ("r", json(&range))));
        for (name, field) in &node.fields {
            members.push((name, self.field(field)));
        }
        self.texts[index] = object(&members);
        index.to_string()
    }

    fn field(&mut self, field: &Field) -> String {
        match field {
            Field::Flag(flag) => json(flag),
            Field::Number(number) => json(number),
            Field::Text(text) => json(text),
            Field::Part(node) => self.index_of(node),
            Field::List(parts) => {
                let parts: Vec<String> = parts.iter().map(|part| self.part(part)).collect();
                format!("[{}]", parts.join(","))
            }
        }
    }

    fn part(&mut self, part: &Part) -> String {
        match part {
            Part::Node(node) => self.index_of(node),
            Part::Text(text) => json(text),
            Part::Absent => "null".to_owned(),
        }
    }

    fn cell(&mut self, cell: &Cell) -> String {
        match cell {
            Cell::Null => "null".to_owned(),
            Cell::Flag(flag) => json(flag),
            Cell::Number(number) => json(number),
            Cell::Text(text) => json(text),
            Cell::List(cells) => self.cells(cells),
            Cell::Tree(node) => self.index_of(node),
        }
    }

    fn cells(&mut self, cells: &[Cell]) -> String {
        let cells: Vec<String> = cells.iter().map(|cell| self.cell(cell)).collect();
        format!("[{}]", cells.join(","))
    }
}

fn json(value: &impl ToJson) -> String {
    let mut out = Writer::default();
    value.to_json(&mut out);
    out.into_text()
}

/// An object with these members, whose values are JSON.
fn object(members: &[(&'static str, String)]) -> String {
    let members: Vec<String> = members.iter().map(|(name, value)| format!("{}:{value}", json(name))).collect();
    format!("{{{}}}", members.join(","))
}
