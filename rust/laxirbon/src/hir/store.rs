//! The store: all entries that lowering made.

use super::arena::{Arena, Idx};
use super::expr::{Expr, Label};
use super::ids::{BindingId, ExprId, LabelId, LifetimeRefId, PatId, TypeRefId};
use super::pat::{Binding, Pat};
use super::type_ref::{LifetimeRef, TypeRef};
use crate::json::{FromJson, Problem, ReadError, Sizes, ToJson, Value, Writer, record};
use std::ops::Index;

/// A body or a constant that was lowered: its expression, and where what came with it ends. It begins where the root before it ends.
#[derive(Clone, Copy, Debug, PartialEq, Eq, Hash)]
pub struct ExprRoot {
    pub root: ExprId,
    pub exprs_end: ExprId,
    pub pats_end: PatId,
    pub bindings_end: BindingId,
}

/// Where entries end may be the end of all.
fn end(value: Value<'_>, count: usize) -> Result<u32, ReadError> {
    let end = u32::from_json(value, &Sizes::default())?;
    if end as usize <= count { Ok(end) } else { Err(value.error(Problem::OutOfRange)) }
}

impl FromJson for ExprRoot {
    fn from_json(value: Value<'_>, sizes: &Sizes) -> Result<ExprRoot, ReadError> {
        let mut members = value.members()?;
        Ok(ExprRoot {
            bindings_end: BindingId::from_raw(end(members.member("bindings_end")?, sizes.bindings)?),
            exprs_end: ExprId::from_raw(end(members.member("exprs_end")?, sizes.exprs)?),
            pats_end: PatId::from_raw(end(members.member("pats_end")?, sizes.pats)?),
            root: members.read("root", sizes)?,
        })
    }
}

impl ToJson for ExprRoot {
    fn to_json(&self, out: &mut Writer) {
        out.object(vec![
            ("root", &self.root),
            ("exprs_end", &self.exprs_end),
            ("pats_end", &self.pats_end),
            ("bindings_end", &self.bindings_end),
        ]);
    }
}

/// The expressions, patterns, bindings, labels, types and lifetimes of what was lowered. Each kind has an arena of its own, and entries
/// name one another by id. An id of the same store always has an entry.
///
/// ```
/// # use laxirbon::{Body, Expr};
/// # fn calls(body: &Body) -> usize {
/// body.store.exprs().values().filter(|expr| matches!(expr, Expr::Call { .. })).count()
/// # }
/// ```
#[derive(Clone, Debug, Default, PartialEq, Eq)]
pub struct ExpressionStore {
    exprs: Arena<Expr>,
    pats: Arena<Pat>,
    bindings: Arena<Binding>,
    labels: Arena<Label>,
    types: Arena<TypeRef>,
    lifetimes: Arena<LifetimeRef>,
    binding_owners: Vec<Option<ExprId>>,
    roots: Vec<ExprRoot>,
}

record!(ExpressionStore { binding_owners, bindings, exprs, labels, lifetimes, pats, roots, types });

impl ExpressionStore {
    pub fn exprs(&self) -> &Arena<Expr> {
        &self.exprs
    }

    pub fn pats(&self) -> &Arena<Pat> {
        &self.pats
    }

    pub fn bindings(&self) -> &Arena<Binding> {
        &self.bindings
    }

    pub fn labels(&self) -> &Arena<Label> {
        &self.labels
    }

    pub fn types(&self) -> &Arena<TypeRef> {
        &self.types
    }

    pub fn lifetimes(&self) -> &Arena<LifetimeRef> {
        &self.lifetimes
    }

    /// The body, if one was lowered, and the constants that were, in the order of lowering.
    pub fn expr_roots(&self) -> &[ExprRoot] {
        &self.roots
    }

    /// What owns the binding: the innermost closure, coroutine, `const` block, length or constant argument that it is made in. A binding of
    /// the body itself has no owner.
    pub fn binding_owner(&self, id: BindingId) -> Option<ExprId> {
        self.binding_owners.get(id.into_raw() as usize).copied().flatten()
    }

    /// Hands on the expression and all that stand in it, each whole before its parts. Those in patterns and in arguments aren't
    /// among them.
    pub fn walk_exprs(&self, root: ExprId, f: &mut impl FnMut(ExprId)) {
        walk(&self.exprs, root, f, |expr, children| expr.for_each_child(|child| children.push(child)));
    }

    /// Hands on the pattern and all that stand in it, each whole before its parts.
    pub fn walk_pats(&self, root: PatId, f: &mut impl FnMut(PatId)) {
        walk(&self.pats, root, f, |pat, children| pat.for_each_child(|child| children.push(child)));
    }

    /// Hands on what the pattern and those in it bind.
    pub fn walk_bindings_in_pat(&self, root: PatId, mut f: impl FnMut(BindingId)) {
        self.walk_pats(root, &mut |id| {
            if let Pat::Bind { id, .. } = &self[id] {
                f(*id);
            }
        });
    }
}

/// Hands on what is reached from a root. It takes no stack by depth. No result of the library has an entry that contains itself. So that a
/// walk over another one ends, it hands on no more entries than there are.
fn walk<T>(arena: &Arena<T>, root: Idx<T>, f: &mut impl FnMut(Idx<T>), children: impl Fn(&T, &mut Vec<Idx<T>>)) {
    let mut left = vec![root];
    let mut below = Vec::new();
    for _ in 0..arena.len() {
        let Some(id) = left.pop() else { return };
        f(id);
        children(&arena[id], &mut below);
        left.extend(below.drain(..).rev());
    }
}

macro_rules! entries {
    ($($id:ident in $arena:ident is $type:ident),* $(,)?) => {
        $(impl Index<$id> for ExpressionStore {
            type Output = $type;

            fn index(&self, id: $id) -> &$type {
                &self.$arena[id]
            }
        })*
    };
}

entries! {
    ExprId in exprs is Expr,
    PatId in pats is Pat,
    BindingId in bindings is Binding,
    LabelId in labels is Label,
    TypeRefId in types is TypeRef,
    LifetimeRefId in lifetimes is LifetimeRef,
}
