//! The source map: from syntax nodes to entries of the store, and back.

use super::diagnostics::ExpressionStoreDiagnostics;
use super::ids::{BindingId, BlockId, ExprId, LabelId, LifetimeRefId, PatId, TypeRefId};
use super::node::{AstPtr, HirFileId, InFile, NodeId, TextRange};
use crate::json::{FromJson, ReadError, Sizes, ToJson, Value, Writer, record};
use std::collections::HashMap;
use std::sync::OnceLock;

/// What syntax nodes became, in the order of lowering. It is searched by an index that the first search makes.
#[derive(Clone, Debug)]
pub struct PointerMap<T> {
    entries: Vec<(InFile<AstPtr>, T)>,
    index: OnceLock<HashMap<InFile<AstPtr>, T>>,
}

impl<T: Copy> PointerMap<T> {
    /// The nodes with what each became.
    pub fn entries(&self) -> &[(InFile<AstPtr>, T)] {
        &self.entries
    }

    /// What the node became.
    pub fn get(&self, node: InFile<AstPtr>) -> Option<T> {
        let index = self.index.get_or_init(|| self.entries.iter().copied().collect());
        index.get(&node).copied()
    }
}

impl<T> Default for PointerMap<T> {
    fn default() -> PointerMap<T> {
        PointerMap { entries: Vec::new(), index: OnceLock::new() }
    }
}

impl<T: PartialEq> PartialEq for PointerMap<T> {
    fn eq(&self, other: &PointerMap<T>) -> bool {
        self.entries == other.entries
    }
}

impl<T: Eq> Eq for PointerMap<T> {}

impl<T: FromJson> FromJson for PointerMap<T> {
    fn from_json(value: Value<'_>, sizes: &Sizes) -> Result<PointerMap<T>, ReadError> {
        Ok(PointerMap { entries: Vec::from_json(value, sizes)?, index: OnceLock::new() })
    }
}

impl<T: ToJson> ToJson for PointerMap<T> {
    fn to_json(&self, out: &mut Writer) {
        self.entries.to_json(out);
    }
}

/// What an expression became: an expression, or a pattern on the left side of an assignment.
#[derive(Clone, Copy, Debug, PartialEq, Eq, Hash)]
pub enum ExprOrPatId {
    ExprId(ExprId),
    PatId(PatId),
}

/// A macro call that lowering entered, and the file that it expands to. The list of an expansion has calls without a range.
#[derive(Clone, Copy, Debug, PartialEq, Eq, Hash)]
pub struct ExpandedCall {
    pub call: InFile<NodeId>,
    pub range: Option<TextRange>,
    pub file: HirFileId,
}

record!(ExpandedCall { call, file, range });

/// From syntax nodes to what they became and back, with the expansions and the diagnostics.
#[derive(Clone, Debug, Default, PartialEq, Eq)]
pub struct ExpressionStoreSourceMap {
    expr_map: PointerMap<ExprId>,
    expr_sources: Vec<Option<InFile<AstPtr>>>,
    pat_map: PointerMap<PatId>,
    pat_sources: Vec<Option<InFile<AstPtr>>>,
    target_map: PointerMap<PatId>,
    label_map: PointerMap<LabelId>,
    label_sources: Vec<Option<InFile<AstPtr>>>,
    types_map: PointerMap<TypeRefId>,
    type_sources: Vec<Option<InFile<AstPtr>>>,
    lifetime_map: PointerMap<LifetimeRefId>,
    lifetime_sources: Vec<Option<InFile<AstPtr>>>,
    binding_definitions: Vec<Vec<PatId>>,
    field_map_back: Vec<(ExprId, InFile<AstPtr>)>,
    pat_field_map_back: Vec<(PatId, InFile<AstPtr>)>,
    block_scopes: Vec<BlockId>,
    expansions: Vec<ExpandedCall>,
    diagnostics: Vec<ExpressionStoreDiagnostics>,
}

record!(ExpressionStoreSourceMap {
    binding_definitions,
    block_scopes,
    diagnostics,
    expansions,
    expr_map,
    expr_sources,
    field_map_back,
    label_map,
    label_sources,
    lifetime_map,
    lifetime_sources,
    pat_field_map_back,
    pat_map,
    pat_sources,
    target_map,
    type_sources,
    types_map
});

/// The source of an entry, if it has one.
fn source(sources: &[Option<InFile<AstPtr>>], index: u32) -> Option<InFile<AstPtr>> {
    sources.get(index as usize).copied().flatten()
}

impl ExpressionStoreSourceMap {
    /// What the expression became. On the left side of an assignment that may be a pattern.
    pub fn node_expr(&self, node: InFile<AstPtr>) -> Option<ExprOrPatId> {
        let expr = self.expr_map.get(node).map(ExprOrPatId::ExprId);
        expr.or_else(|| self.target_map.get(node).map(ExprOrPatId::PatId))
    }

    /// The node that the expression came from. One that lowering added may have none.
    pub fn expr_syntax(&self, id: ExprId) -> Option<InFile<AstPtr>> {
        source(&self.expr_sources, id.into_raw())
    }

    /// What the written pattern became.
    pub fn node_pat(&self, node: InFile<AstPtr>) -> Option<PatId> {
        self.pat_map.get(node)
    }

    pub fn pat_syntax(&self, id: PatId) -> Option<InFile<AstPtr>> {
        source(&self.pat_sources, id.into_raw())
    }

    pub fn node_label(&self, node: InFile<AstPtr>) -> Option<LabelId> {
        self.label_map.get(node)
    }

    pub fn label_syntax(&self, id: LabelId) -> Option<InFile<AstPtr>> {
        source(&self.label_sources, id.into_raw())
    }

    /// What the type became. Parentheses and `for<..>` are no types of their own.
    pub fn node_type(&self, node: InFile<AstPtr>) -> Option<TypeRefId> {
        self.types_map.get(node)
    }

    pub fn type_syntax(&self, id: TypeRefId) -> Option<InFile<AstPtr>> {
        source(&self.type_sources, id.into_raw())
    }

    pub fn node_lifetime(&self, node: InFile<AstPtr>) -> Option<LifetimeRefId> {
        self.lifetime_map.get(node)
    }

    pub fn lifetime_syntax(&self, id: LifetimeRefId) -> Option<InFile<AstPtr>> {
        source(&self.lifetime_sources, id.into_raw())
    }

    /// The patterns that make the binding, in ascending order.
    pub fn patterns_for_binding(&self, id: BindingId) -> &[PatId] {
        self.binding_definitions.get(id.into_raw() as usize).map_or(&[], Vec::as_slice)
    }

    /// The field of a record expression whose value this is.
    pub fn field_syntax(&self, id: ExprId) -> Option<InFile<AstPtr>> {
        self.field_map_back.iter().find(|(expr, _)| *expr == id).map(|(_, node)| *node)
    }

    /// The field of a record pattern whose pattern this is.
    pub fn pat_field_syntax(&self, id: PatId) -> Option<InFile<AstPtr>> {
        self.pat_field_map_back.iter().find(|(pat, _)| *pat == id).map(|(_, node)| *node)
    }

    /// The blocks that are scopes of items, in the order of lowering.
    pub fn block_scopes(&self) -> &[BlockId] {
        &self.block_scopes
    }

    /// The macro calls that lowering entered, in the order of lowering.
    pub fn expansions(&self) -> &[ExpandedCall] {
        &self.expansions
    }

    /// The file that the call was expanded to the last time. Only calls with the same range count.
    pub fn expansion(&self, call: InFile<NodeId>, range: Option<TextRange>) -> Option<HirFileId> {
        let found = self.expansions.iter().rev().find(|entry| entry.call == call && entry.range == range);
        found.map(|entry| entry.file)
    }

    /// What is wrong with the written body, in the order of lowering.
    pub fn diagnostics(&self) -> &[ExpressionStoreDiagnostics] {
        &self.diagnostics
    }
}
