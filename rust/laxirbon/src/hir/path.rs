//! Paths, and the arguments of their segments.

use super::ids::{CrateId, LangItemId, LifetimeRefId, TypeRefId};
use super::name::Name;
use super::type_ref::{ConstRef, TypeBound};
use crate::json::{FromJson, Problem, ReadError, Record, Sizes, ToJson, Value, Writer, kinds, record, words};

/// Where a path begins. `Super(n)` is n modules above the one that the path stands in: `self` if n is 0, else n times `super`. `Abs` is a
/// leading `::`.
#[derive(Clone, Copy, Debug, PartialEq, Eq, PartialOrd, Ord, Hash)]
pub enum PathKind {
    Plain,
    Super(u32),
    Crate,
    Abs,
    DollarCrate(CrateId),
}

kinds!(PathKind { Plain, Super(modules), Crate, Abs, DollarCrate(root) });

/// A path without arguments.
#[derive(Clone, Debug, PartialEq, Eq, PartialOrd, Ord, Hash)]
pub struct ModPath {
    pub kind: PathKind,
    pub segments: Vec<Name>,
}

record!(ModPath { kind, segments });

/// A path with a type that it is relative to, or with arguments. Beside each name stand its arguments.
#[derive(Clone, Debug, PartialEq, Eq, Hash)]
pub struct NormalPath {
    pub type_anchor: Option<TypeRefId>,
    pub mod_path: ModPath,
    pub generic_args: Vec<Option<GenericArgs>>,
}

/// A path of an expression, a pattern, a type or a bound. One with neither an anchor nor arguments is bare. A lang item isn't written:
/// lowering puts it in.
#[derive(Clone, Debug, PartialEq, Eq, Hash)]
pub enum Path {
    BarePath(ModPath),
    Normal(NormalPath),
    LangItem(LangItemId),
}

kinds!(Path { BarePath[ModPath], Normal[NormalPath], LangItem(item) });

impl Path {
    /// The path without arguments, if it has names.
    pub fn mod_path(&self) -> Option<&ModPath> {
        match self {
            Path::BarePath(mod_path) => Some(mod_path),
            Path::Normal(path) => Some(&path.mod_path),
            Path::LangItem(_) => None,
        }
    }
}

impl FromJson for NormalPath {
    fn from_json(value: Value<'_>, sizes: &Sizes) -> Result<NormalPath, ReadError> {
        let mut members = value.members()?;
        Ok(NormalPath {
            generic_args: members.read("generic_args", sizes)?,
            mod_path: ModPath::from_json(value, sizes)?,
            type_anchor: members.read("type_anchor", sizes)?,
        })
    }
}

impl Record for NormalPath {
    fn members(&self) -> crate::json::Members<'_> {
        let mut members = self.mod_path.members();
        members.push(("type_anchor", &self.type_anchor));
        members.push(("generic_args", &self.generic_args));
        members
    }
}

impl ToJson for NormalPath {
    fn to_json(&self, out: &mut Writer) {
        out.object(self.members());
    }
}

/// An argument of a segment, of a method that is called, or of an associated type.
#[derive(Clone, Copy, Debug, PartialEq, Eq, Hash)]
pub enum GenericArg {
    Type(TypeRefId),
    Lifetime(LifetimeRefId),
    Const(ConstRef),
}

kinds!(GenericArg { Type(ty), Lifetime(lifetime), Const(expr) });

/// How arguments were written: `<..>`, `(..)` or `(A) -> C`.
#[derive(Clone, Copy, Debug, PartialEq, Eq, Hash)]
pub enum GenericArgsParentheses {
    No,
    ReturnTypeNotation,
    ParenSugar,
}

words!(GenericArgsParentheses {
    GenericArgsParentheses::No => "No",
    GenericArgsParentheses::ReturnTypeNotation => "ReturnTypeNotation",
    GenericArgsParentheses::ParenSugar => "ParenSugar",
});

/// The arguments of a segment, of a method that is called, or of an associated type. The first stands for `Self` if `has_self_type`.
#[derive(Clone, Debug, PartialEq, Eq, Hash)]
pub struct GenericArgs {
    pub args: Vec<GenericArg>,
    pub has_self_type: bool,
    pub bindings: Vec<AssociatedTypeBinding>,
    pub parenthesized: GenericArgsParentheses,
}

/// `Name = T` or `Name: Bound + Bound`, with the name's own arguments.
#[derive(Clone, Debug, PartialEq, Eq, Hash)]
pub struct AssociatedTypeBinding {
    pub name: Name,
    pub args: Option<GenericArgs>,
    pub type_ref: Option<TypeRefId>,
    pub bounds: Vec<TypeBound>,
}

/// How deep arguments of associated types may stand in one another. A document's tree has 256 levels.
const LEVELS: u32 = 256;

/// An entry of a list of arguments, of which the last is the arguments themselves.
struct FlatArgs {
    args: Vec<GenericArg>,
    bindings: Vec<FlatBinding>,
    has_self_type: bool,
    parenthesized: GenericArgsParentheses,
}

record!(FlatArgs { args, bindings, has_self_type, parenthesized });

/// An associated type. Its own arguments are an entry of the same list.
struct FlatBinding {
    args: Option<u32>,
    bounds: Vec<TypeBound>,
    name: Name,
    type_ref: Option<TypeRefId>,
}

record!(FlatBinding { args, bounds, name, type_ref });

/// Arguments that no entry has named yet, and how many levels stand in them.
type Unused = Option<(GenericArgs, u32)>;

impl FlatArgs {
    /// The arguments that this entry is, with those that it names. Each is named once.
    fn unflatten(self, unused: &mut [Unused]) -> Option<(GenericArgs, u32)> {
        let mut levels = 0;
        let mut bindings = Vec::with_capacity(self.bindings.len());
        for FlatBinding { args, bounds, name, type_ref } in self.bindings {
            let args = match args {
                Some(index) => {
                    let (args, inner) = unused.get_mut(index as usize)?.take()?;
                    levels = levels.max(inner);
                    Some(args)
                }
                None => None,
            };
            bindings.push(AssociatedTypeBinding { name, args, type_ref, bounds });
        }
        let FlatArgs { args, has_self_type, parenthesized, .. } = self;
        let all = GenericArgs { args, has_self_type, bindings, parenthesized };
        (levels < LEVELS).then_some((all, levels + 1))
    }
}

impl FromJson for GenericArgs {
    fn from_json(value: Value<'_>, sizes: &Sizes) -> Result<GenericArgs, ReadError> {
        let mut unused: Vec<Unused> = Vec::new();
        for item in value.items()? {
            let entry = FlatArgs::from_json(item, sizes)?.unflatten(&mut unused);
            unused.push(Some(entry.ok_or(item.error(Problem::Expected("arguments")))?));
        }
        let last = unused.pop().flatten();
        match last {
            Some((args, _)) if unused.iter().all(Option::is_none) => Ok(args),
            _ => Err(value.error(Problem::Expected("arguments"))),
        }
    }
}

impl GenericArgs {
    /// Puts the entry behind those that it names, and says where it stands.
    fn flatten(&self, entries: &mut Vec<FlatArgs>) -> u32 {
        let flat = |binding: &AssociatedTypeBinding| FlatBinding {
            args: binding.args.as_ref().map(|args| args.flatten(entries)),
            bounds: binding.bounds.clone(),
            name: binding.name.clone(),
            type_ref: binding.type_ref,
        };
        let bindings = self.bindings.iter().map(flat).collect();
        let GenericArgs { has_self_type, parenthesized, .. } = *self;
        entries.push(FlatArgs { args: self.args.clone(), bindings, has_self_type, parenthesized });
        entries.len() as u32 - 1
    }
}

impl ToJson for GenericArgs {
    fn to_json(&self, out: &mut Writer) {
        let mut entries = Vec::new();
        self.flatten(&mut entries);
        entries.to_json(out);
    }
}
