//! What lowering makes, with the names that it has in rust-analyzer.

mod arena;
mod diagnostics;
mod expr;
mod generics;
mod ids;
mod name;
mod node;
mod ops;
mod pat;
mod path;
mod results;
mod source_map;
mod store;
#[cfg(test)]
mod tests;
mod type_ref;

pub use arena::{Arena, Idx};
pub use diagnostics::{AwaitLocation, ExpressionStoreDiagnostics, MissingBodyItemKind};
pub use expr::{
    Array, CaptureBy, ClosureKind, CoroutineKind, CoroutineSource, Expr, Label, Literal, LoopSource, MatchArm, Movability, RecordLitField,
    RecordSpread, Statement,
};
pub use generics::{
    ConstParamData, GenericParams, LifetimeBoundType, LifetimeParamData, TypeOrConstParamData, TypeParamData, TypeParamProvenance,
    WherePredicate,
};
pub use ids::{
    AdtId, BindingId, BlockId, CfgId, ConstId, CrateId, ExprId, FunctionId, GenericDefId, HygieneId, ImplId, LabelId, LangItemId,
    LifetimeRefId, LocalTypeOrConstParamId, MacroDefId, PatId, StaticId, TraitId, TypeAliasId, TypeParamId, TypeRefId,
};
pub use name::Name;
pub use node::{AstPtr, HirFileId, InFile, NodeId, TextRange};
pub use ops::{ArithOp, BinaryOp, CmpOp, LiteralKind, LogicOp, Mutability, Ordering, RangeOp, Rawness, UnaryOp};
pub use pat::{Binding, BindingAnnotation, BindingProblems, Pat, RecordFieldPat};
pub use path::{AssociatedTypeBinding, GenericArg, GenericArgs, GenericArgsParentheses, ModPath, NormalPath, Path, PathKind};
pub use results::{Body, FunctionSignature, LoweredPath, LoweredType, Param};
pub use source_map::{ExpandedCall, ExprOrPatId, ExpressionStoreSourceMap, PointerMap};
pub use store::{ExprRoot, ExpressionStore};
pub use type_ref::{
    ArrayType, ConstRef, ExternAbi, FnType, LifetimeRef, RefType, TraitBoundModifier, TraitRef, TypeBound, TypeRef, UseArgRef,
};
