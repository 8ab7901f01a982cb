//! Types, lifetimes and bounds.

use super::ids::{ExprId, LifetimeRefId, PatId, TypeParamId, TypeRefId};
use super::name::Name;
use super::ops::Mutability;
use super::path::Path;
use crate::json::{FromJson, ReadError, Sizes, ToJson, Value, Writer, kinds, record, words};

/// A lifetime as written. `Placeholder` is `'_`. An empty text and `'` alone are errors.
#[derive(Clone, Debug, PartialEq, Eq, Hash)]
pub enum LifetimeRef {
    Named(Name),
    Static,
    Placeholder,
    Error,
}

kinds!(LifetimeRef { Named(name), Static, Placeholder, Error });

/// Whether a bound has a `?`.
#[derive(Clone, Copy, Debug, PartialEq, Eq, Hash)]
pub enum TraitBoundModifier {
    None,
    Maybe,
}

words!(TraitBoundModifier {
    TraitBoundModifier::None => "None",
    TraitBoundModifier::Maybe => "Maybe",
});

/// What `use<..>` names.
#[derive(Clone, Debug, PartialEq, Eq, Hash)]
pub enum UseArgRef {
    Name(Name),
    Lifetime(LifetimeRefId),
}

kinds!(UseArgRef { Name(name), Lifetime(lifetime) });

/// A bound. A path is stored as a type. Behind `for<..>` the names of the lifetimes there stand beside it.
#[derive(Clone, Debug, PartialEq, Eq, Hash)]
pub enum TypeBound {
    Path(TypeRefId, TraitBoundModifier),
    ForLifetime(Vec<Name>, TypeRefId),
    Lifetime(LifetimeRefId),
    Use(Vec<UseArgRef>),
    Error,
}

kinds!(TypeBound { Path(path, modifier), ForLifetime(lifetimes, path), Lifetime(lifetime), Use(args), Error });

/// A lowered constant. A length that isn't written is a missing expression.
#[derive(Clone, Copy, Debug, PartialEq, Eq, PartialOrd, Ord, Hash)]
pub struct ConstRef {
    pub expr: ExprId,
}

impl FromJson for ConstRef {
    fn from_json(value: Value<'_>, sizes: &Sizes) -> Result<ConstRef, ReadError> {
        Ok(ConstRef { expr: ExprId::from_json(value, sizes)? })
    }
}

impl ToJson for ConstRef {
    fn to_json(&self, out: &mut Writer) {
        self.expr.to_json(out);
    }
}

/// A trait, by the path that names it, stored as a type.
#[derive(Clone, Copy, Debug, PartialEq, Eq, PartialOrd, Ord, Hash)]
pub struct TraitRef {
    pub path: TypeRefId,
}

impl FromJson for TraitRef {
    fn from_json(value: Value<'_>, sizes: &Sizes) -> Result<TraitRef, ReadError> {
        Ok(TraitRef { path: TypeRefId::from_json(value, sizes)? })
    }
}

impl ToJson for TraitRef {
    fn to_json(&self, out: &mut Writer) {
        self.path.to_json(out);
    }
}

/// `[T; N]`.
#[derive(Clone, Copy, Debug, PartialEq, Eq, Hash)]
pub struct ArrayType {
    pub ty: TypeRefId,
    pub len: ConstRef,
}

record!(ArrayType { len, ty });

/// `&'a mut T`.
#[derive(Clone, Copy, Debug, PartialEq, Eq, Hash)]
pub struct RefType {
    pub ty: TypeRefId,
    pub lifetime: Option<LifetimeRefId>,
    pub mutability: Mutability,
}

record!(RefType { lifetime, mutability, ty });

/// The ABI of a function pointer. One that isn't written is `Rust`, one of another text `C`.
#[derive(Clone, Copy, Debug, PartialEq, Eq, Hash)]
pub enum ExternAbi {
    Rust,
    C,
    CUnwind,
    System,
    SystemUnwind,
    Cdecl,
    Stdcall,
    Fastcall,
    Vectorcall,
    Thiscall,
    Aapcs,
    Win64,
    Sysv64,
    Efiapi,
    RustCall,
}

words!(ExternAbi {
    ExternAbi::Rust => "Rust",
    ExternAbi::C => "C",
    ExternAbi::CUnwind => "C-unwind",
    ExternAbi::System => "system",
    ExternAbi::SystemUnwind => "system-unwind",
    ExternAbi::Cdecl => "cdecl",
    ExternAbi::Stdcall => "stdcall",
    ExternAbi::Fastcall => "fastcall",
    ExternAbi::Vectorcall => "vectorcall",
    ExternAbi::Thiscall => "thiscall",
    ExternAbi::Aapcs => "aapcs",
    ExternAbi::Win64 => "win64",
    ExternAbi::Sysv64 => "sysv64",
    ExternAbi::Efiapi => "efiapi",
    ExternAbi::RustCall => "rust-call",
});

/// A function pointer. The last of `params` is what it returns, and `names` has what each of the others is called. `binder` has the names
/// of the lifetimes of the `for<..>` directly around it.
#[derive(Clone, Debug, PartialEq, Eq, Hash)]
pub struct FnType {
    pub params: Vec<TypeRefId>,
    pub names: Vec<Option<Name>>,
    pub is_varargs: bool,
    pub is_unsafe: bool,
    pub abi: ExternAbi,
    pub binder: Option<Vec<Name>>,
}

record!(FnType { abi, binder, is_unsafe, is_varargs, names, params });

/// A type, whose parts stand in the same store.
#[derive(Clone, Debug, PartialEq, Eq, Hash)]
pub enum TypeRef {
    Never,
    Placeholder,
    Error,
    Tuple(Vec<TypeRefId>),
    Path(Path),
    RawPtr(TypeRefId, Mutability),
    Reference(RefType),
    Slice(TypeRefId),
    Array(ArrayType),
    Fn(FnType),
    ImplTrait(Vec<TypeBound>),
    DynTrait(Vec<TypeBound>),
    /// The values of a type that a pattern fits.
    Pattern(TypeRefId, PatId),
    /// What is given for a parameter of an item. If that is an `impl` of an argument, its bounds stand among the item's predicates.
    TypeParam(TypeParamId),
}

kinds!(TypeRef {
    Never,
    Placeholder,
    Error,
    Tuple(types),
    Path(path),
    RawPtr(ty, mutability),
    Reference[RefType],
    Slice(ty),
    Array[ArrayType],
    Fn[FnType],
    ImplTrait(bounds),
    DynTrait(bounds),
    Pattern(ty, pat),
    TypeParam[TypeParamId],
});
