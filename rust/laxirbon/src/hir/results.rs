//! What a document is lowered to, by its mode.

use super::generics::GenericParams;
use super::ids::{BindingId, ExprId, PatId, TypeRefId};
use super::node::{AstPtr, InFile};
use super::path::Path;
use super::source_map::ExpressionStoreSourceMap;
use super::store::ExpressionStore;
use crate::json::{FromJson, Problem, ReadError, Record, Sizes, Tape, ToJson, Value, Writer, record};
use std::ops::Deref;

/// The format that this crate reads, of `docs/RESULT.md`.
const FORMAT: u32 = 1;

/// A parameter: what receives the argument, and what was written for it. The two differ in functions with `async` or `gen`.
#[derive(Clone, Copy, Debug, PartialEq, Eq, Hash)]
pub struct Param<T> {
    pub formal: T,
    pub user_written: T,
}

impl<T: FromJson> FromJson for Param<T> {
    fn from_json(value: Value<'_>, sizes: &Sizes) -> Result<Param<T>, ReadError> {
        let mut members = value.members()?;
        Ok(Param { formal: members.read("formal", sizes)?, user_written: members.read("user_written", sizes)? })
    }
}

impl<T: ToJson> ToJson for Param<T> {
    fn to_json(&self, out: &mut Writer) {
        out.object(vec![("formal", &self.formal), ("user_written", &self.user_written)]);
    }
}

/// A body with its parameters. A pattern by itself is lowered as the only parameter of a function without body.
#[derive(Clone, Debug, PartialEq, Eq)]
pub struct Body {
    pub store: ExpressionStore,
    pub source_map: ExpressionStoreSourceMap,
    pub params: Vec<Param<PatId>>,
    pub self_param: Option<Param<BindingId>>,
    /// The node of `self`.
    pub self_node: Option<InFile<AstPtr>>,
}

record!(Body { params, self_node, self_param, source_map, store });

impl Body {
    /// The expression that the body is: a missing one, if none is written. A result of the library has one.
    pub fn root_expr(&self) -> Option<ExprId> {
        self.store.expr_roots().first().map(|root| root.root)
    }
}

/// As in rust-analyzer, what a body has is what its store has: `body[id]` is an entry.
impl Deref for Body {
    type Target = ExpressionStore;

    fn deref(&self) -> &ExpressionStore {
        &self.store
    }
}

/// A path by itself. It is absent if it has an error for which upstream refuses all of it.
#[derive(Clone, Debug, PartialEq, Eq)]
pub struct LoweredPath {
    pub store: ExpressionStore,
    pub source_map: ExpressionStoreSourceMap,
    pub path: Option<Path>,
}

record!(LoweredPath { path, source_map, store });

/// A type by itself.
#[derive(Clone, Debug, PartialEq, Eq)]
pub struct LoweredType {
    pub store: ExpressionStore,
    pub source_map: ExpressionStoreSourceMap,
    pub type_ref: TypeRefId,
}

record!(LoweredType { source_map, store, type_ref });

/// The signature of a function.
#[derive(Clone, Debug, PartialEq, Eq)]
pub struct FunctionSignature {
    pub store: ExpressionStore,
    pub source_map: ExpressionStoreSourceMap,
    pub generic_params: GenericParams,
    pub args: Vec<TypeRefId>,
    pub ret: Option<TypeRefId>,
    pub has_self: bool,
    pub has_variadic: bool,
}

record!(FunctionSignature { args, generic_params, has_self, has_variadic, ret, source_map, store });

/// How many entries each arena of a result has.
fn sizes(result: Value<'_>) -> Result<Sizes, ReadError> {
    let mut store = result.member("store")?.members()?;
    let mut count = |key| Ok::<usize, ReadError>(store.member(key)?.items()?.count());
    Ok(Sizes {
        bindings: count("bindings")?,
        exprs: count("exprs")?,
        labels: count("labels")?,
        lifetimes: count("lifetimes")?,
        pats: count("pats")?,
        types: count("types")?,
    })
}

/// What a result is read as that is JSON of `docs/RESULT.md`.
fn read<T: FromJson>(text: &str) -> Result<T, ReadError> {
    let tape = Tape::new(text)?;
    let result = tape.root();
    let format = result.member("format")?;
    if format.as_u32() != Some(FORMAT) {
        return Err(format.error(Problem::Format));
    }
    T::from_json(result, &sizes(result)?)
}

/// What a result is as JSON of `docs/RESULT.md`.
fn write(result: &impl Record) -> String {
    let mut out = Writer::default();
    let mut members = result.members();
    members.push(("format", &FORMAT));
    out.object(members);
    out.into_text()
}

macro_rules! results {
    ($($type:ident),* $(,)?) => {
        $(impl $type {
            /// Reads the JSON that the library writes. Each id in what is read has an entry.
            pub fn from_json(text: &str) -> Result<$type, ReadError> {
                read(text)
            }

            /// Writes the JSON that the library writes, so what was read from it is written alike.
            pub fn to_json(&self) -> String {
                write(self)
            }
        })*
    };
}

results! { Body, LoweredPath, LoweredType, FunctionSignature }
