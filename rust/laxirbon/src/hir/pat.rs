//! Patterns, and what they bind.

use super::ids::{BindingId, ExprId, HygieneId, PatId};
use super::name::Name;
use super::ops::{Mutability, RangeOp};
use super::path::Path;
use crate::json::{kinds, record, words};

/// How a pattern binds a name.
#[derive(Clone, Copy, Debug, PartialEq, Eq, Hash)]
pub enum BindingAnnotation {
    Unannotated,
    Mutable,
    Ref,
    RefMut,
}

words!(BindingAnnotation {
    BindingAnnotation::Unannotated => "plain",
    BindingAnnotation::Mutable => "mut",
    BindingAnnotation::Ref => "ref",
    BindingAnnotation::RefMut => "refmut",
});

/// What is wrong with a binding.
#[derive(Clone, Copy, Debug, PartialEq, Eq, Hash)]
pub enum BindingProblems {
    BoundMoreThanOnce,
    BoundInconsistently,
    NotBoundAcrossAll,
}

words!(BindingProblems {
    BindingProblems::BoundMoreThanOnce => "more",
    BindingProblems::BoundInconsistently => "inconsistent",
    BindingProblems::NotBoundAcrossAll => "notall",
});

/// A name that patterns bind, as its first use binds it.
#[derive(Clone, Debug, PartialEq, Eq, Hash)]
pub struct Binding {
    pub name: Name,
    pub mode: BindingAnnotation,
    pub hygiene: HygieneId,
    pub problems: Option<BindingProblems>,
}

record!(Binding { hygiene, mode, name, problems });

/// A field of a record pattern.
#[derive(Clone, Debug, PartialEq, Eq, Hash)]
pub struct RecordFieldPat {
    pub name: Name,
    pub pat: PatId,
}

record!(RecordFieldPat { name, pat });

/// A pattern, or the left side of an assignment. Its parts stand in the same store. An ellipsis is the index among `args` at which `..`
/// stands.
#[derive(Clone, Debug, PartialEq, Eq, Hash)]
pub enum Pat {
    Missing,
    Wild,
    /// `..`
    Rest,
    /// `!null`
    NotNull,
    Bind {
        id: BindingId,
        subpat: Option<PatId>,
    },
    Path {
        path: Path,
        hygiene: HygieneId,
    },
    TupleStruct {
        path: Path,
        ellipsis: Option<u32>,
        args: Vec<PatId>,
    },
    Tuple {
        ellipsis: Option<u32>,
        args: Vec<PatId>,
    },
    Record {
        path: Path,
        args: Vec<RecordFieldPat>,
        ellipsis: bool,
    },
    Or(Vec<PatId>),
    Slice {
        prefix: Vec<PatId>,
        slice: Option<PatId>,
        suffix: Vec<PatId>,
    },
    Ref {
        mutability: Mutability,
        pat: PatId,
    },
    Box {
        inner: PatId,
    },
    Deref {
        inner: PatId,
    },
    Lit(ExprId),
    /// A range, whose sides are literals or paths.
    Range {
        op: RangeOp,
        start: Option<ExprId>,
        end: Option<ExprId>,
    },
    /// A place that is assigned to.
    Expr(ExprId),
}

kinds!(Pat {
    Missing,
    Wild,
    Rest,
    NotNull,
    Bind { id, subpat },
    Path { hygiene, path },
    TupleStruct { args, ellipsis, path },
    Tuple { args, ellipsis },
    Record { args, ellipsis, path },
    Or(pats),
    Slice { prefix, slice, suffix },
    Ref { mutability, pat },
    Box { inner },
    Deref { inner },
    Lit(expr),
    Range { end, op, start },
    Expr(expr),
});

impl Pat {
    /// Hands on the patterns that this one names, in the order in which they stand in it.
    pub fn for_each_child(&self, mut f: impl FnMut(PatId)) {
        match self {
            Pat::Bind { subpat, .. } => subpat.iter().copied().for_each(f),
            Pat::TupleStruct { args, .. } | Pat::Tuple { args, .. } | Pat::Or(args) => args.iter().copied().for_each(f),
            Pat::Record { args, .. } => args.iter().for_each(|field| f(field.pat)),
            Pat::Slice { prefix, slice, suffix } => prefix.iter().chain(slice).chain(suffix).copied().for_each(f),
            Pat::Ref { pat, .. } | Pat::Box { inner: pat } | Pat::Deref { inner: pat } => f(*pat),
            Pat::Missing | Pat::Wild | Pat::Rest | Pat::NotNull | Pat::Path { .. } | Pat::Lit(_) | Pat::Range { .. } | Pat::Expr(_) => {}
        }
    }
}
