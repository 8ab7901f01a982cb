//! Generic parameters of items, and what is required of types and lifetimes.

use super::ids::{LifetimeRefId, LocalTypeOrConstParamId, TypeRefId};
use super::name::Name;
use super::type_ref::{ConstRef, TypeBound};
use crate::json::{kinds, record, words};

/// What a type parameter is: written in a list of parameters, a trait's `Self`, or an `impl` in an argument.
#[derive(Clone, Copy, Debug, PartialEq, Eq, Hash)]
pub enum TypeParamProvenance {
    TypeParamList,
    TraitSelf,
    ArgumentImplTrait,
}

words!(TypeParamProvenance {
    TypeParamProvenance::TypeParamList => "TypeParamList",
    TypeParamProvenance::TraitSelf => "TraitSelf",
    TypeParamProvenance::ArgumentImplTrait => "ArgumentImplTrait",
});

/// A type parameter. One that an `impl` became has no name.
#[derive(Clone, Debug, PartialEq, Eq, Hash)]
pub struct TypeParamData {
    pub name: Option<Name>,
    pub default: Option<TypeRefId>,
    pub provenance: TypeParamProvenance,
}

record!(TypeParamData { default, name, provenance });

/// A constant parameter.
#[derive(Clone, Debug, PartialEq, Eq, Hash)]
pub struct ConstParamData {
    pub name: Name,
    pub ty: TypeRefId,
    pub default: Option<ConstRef>,
}

record!(ConstParamData { default, name, ty });

/// A type or a constant parameter. The two are counted together.
#[derive(Clone, Debug, PartialEq, Eq, Hash)]
pub enum TypeOrConstParamData {
    TypeParamData(TypeParamData),
    ConstParamData(ConstParamData),
}

kinds!(TypeOrConstParamData { TypeParamData[TypeParamData], ConstParamData[ConstParamData] });

impl TypeOrConstParamData {
    /// The name, unless an `impl` became the parameter.
    pub fn name(&self) -> Option<&Name> {
        match self {
            TypeOrConstParamData::TypeParamData(param) => param.name.as_ref(),
            TypeOrConstParamData::ConstParamData(param) => Some(&param.name),
        }
    }
}

/// When a lifetime parameter is given: with the item's other arguments, or at each call.
#[derive(Clone, Copy, Debug, PartialEq, Eq, Hash)]
pub enum LifetimeBoundType {
    EarlyBound,
    LateBound,
}

words!(LifetimeBoundType {
    LifetimeBoundType::EarlyBound => "EarlyBound",
    LifetimeBoundType::LateBound => "LateBound",
});

/// A lifetime parameter.
#[derive(Clone, Debug, PartialEq, Eq, Hash)]
pub struct LifetimeParamData {
    pub name: Name,
    pub bound_type: LifetimeBoundType,
}

record!(LifetimeParamData { bound_type, name });

/// What is required of a type or a lifetime.
#[derive(Clone, Debug, PartialEq, Eq, Hash)]
pub enum WherePredicate {
    TypeBound { lifetimes: Option<Vec<Name>>, target: TypeRefId, bound: TypeBound },
    Lifetime { target: LifetimeRefId, bound: LifetimeRefId },
}

kinds!(WherePredicate { TypeBound { bound, lifetimes, target }, Lifetime { bound, target } });

/// The generic parameters of an item, each sort in the order in which it is written, and what is required of types and lifetimes.
#[derive(Clone, Debug, PartialEq, Eq, Hash)]
pub struct GenericParams {
    pub early_bound_lifetimes_len: u32,
    pub type_or_consts: Vec<TypeOrConstParamData>,
    pub lifetimes: Vec<LifetimeParamData>,
    pub where_predicates: Vec<WherePredicate>,
}

record!(GenericParams { early_bound_lifetimes_len, lifetimes, type_or_consts, where_predicates });

impl GenericParams {
    /// The index of a trait's `Self`, which is the first parameter.
    pub fn trait_self_param(&self) -> Option<LocalTypeOrConstParamId> {
        match self.type_or_consts.first()? {
            TypeOrConstParamData::TypeParamData(param) if param.provenance == TypeParamProvenance::TraitSelf => {
                Some(LocalTypeOrConstParamId(0))
            }
            _ => None,
        }
    }
}
