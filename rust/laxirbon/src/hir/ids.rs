//! Ids: those of entries of a store, and the numbers that the environment gives to what it knows.

use super::arena::{Entry, Idx};
use super::expr::{Expr, Label};
use super::pat::{Binding, Pat};
use super::type_ref::{LifetimeRef, TypeRef};
use crate::json::{Sizes, kinds, numbers, record};

pub type ExprId = Idx<Expr>;
pub type PatId = Idx<Pat>;
pub type BindingId = Idx<Binding>;
pub type LabelId = Idx<Label>;
pub type TypeRefId = Idx<TypeRef>;
pub type LifetimeRefId = Idx<LifetimeRef>;

macro_rules! entries {
    ($($type:ident in $arena:ident),* $(,)?) => {
        $(impl Entry for $type {
            fn count(sizes: &Sizes) -> usize {
                sizes.$arena
            }
        })*
    };
}

entries! { Expr in exprs, Pat in pats, Binding in bindings, Label in labels, TypeRef in types, LifetimeRef in lifetimes }

macro_rules! declare_numbers {
    ($($(#[$doc:meta])* $type:ident),* $(,)?) => {
        $($(#[$doc])*
        #[derive(Clone, Copy, Debug, PartialEq, Eq, PartialOrd, Ord, Hash)]
        pub struct $type(pub u32);)*

        numbers! { $($type),* }
    };
}

declare_numbers! {
    /// A crate that `$crate` refers to.
    CrateId,
    /// A lang item.
    LangItemId,
    /// The `cfg` that disables a node.
    CfgId,
    /// The hygiene of a name.
    HygieneId,
    /// The definition of a macro.
    MacroDefId,
    /// A block that is a scope of items.
    BlockId,
    /// A struct, a union or an enum.
    AdtId,
    /// A constant.
    ConstId,
    /// A function.
    FunctionId,
    /// An `impl`.
    ImplId,
    /// A static.
    StaticId,
    /// A trait.
    TraitId,
    /// A type alias.
    TypeAliasId,
    /// The index of a type or constant parameter among those of its item.
    LocalTypeOrConstParamId,
}

impl HygieneId {
    /// The hygiene of what no macro wrote.
    pub const ROOT: HygieneId = HygieneId(0);
}

/// The item that generic parameters are written at.
#[derive(Clone, Copy, Debug, PartialEq, Eq, PartialOrd, Ord, Hash)]
pub enum GenericDefId {
    AdtId(AdtId),
    ConstId(ConstId),
    FunctionId(FunctionId),
    ImplId(ImplId),
    StaticId(StaticId),
    TraitId(TraitId),
    TypeAliasId(TypeAliasId),
}

kinds!(GenericDefId {
    AdtId(id),
    ConstId(id),
    FunctionId(id),
    ImplId(id),
    StaticId(id),
    TraitId(id),
    TypeAliasId(id),
});

/// A type parameter, by its item and its index there.
#[derive(Clone, Copy, Debug, PartialEq, Eq, PartialOrd, Ord, Hash)]
pub struct TypeParamId {
    pub parent: GenericDefId,
    pub local_id: LocalTypeOrConstParamId,
}

record!(TypeParamId { local_id, parent });
