//! What is wrong with a written body.

use super::ids::CfgId;
use super::name::Name;
use super::node::{AstPtr, InFile};
use super::path::ModPath;
use crate::json::{kinds, words};

/// The kind of an item that lacks a body.
#[derive(Clone, Copy, Debug, PartialEq, Eq, Hash)]
pub enum MissingBodyItemKind {
    Static,
    Const,
    AssocConst,
    TypeAlias,
    AssocType,
}

words!(MissingBodyItemKind {
    MissingBodyItemKind::Static => "Static",
    MissingBodyItemKind::Const => "Const",
    MissingBodyItemKind::AssocConst => "AssocConst",
    MissingBodyItemKind::TypeAlias => "TypeAlias",
    MissingBodyItemKind::AssocType => "AssocType",
});

/// What an `await` outside of async code stands in.
#[derive(Clone, Copy, Debug, PartialEq, Eq, Hash)]
pub enum AwaitLocation {
    NonAsyncFunction,
    Static,
    Constant,
    EnumVariant,
    NonAsyncGenBlock,
    ConstantBlock,
    NonAsyncClosure,
    Unknown,
}

words!(AwaitLocation {
    AwaitLocation::NonAsyncFunction => "non-async function",
    AwaitLocation::Static => "static",
    AwaitLocation::Constant => "constant",
    AwaitLocation::EnumVariant => "enum variant",
    AwaitLocation::NonAsyncGenBlock => "non-async gen block",
    AwaitLocation::ConstantBlock => "constant block",
    AwaitLocation::NonAsyncClosure => "non-async closure",
    AwaitLocation::Unknown => "unknown",
});

/// An error in the written text, with the node that it is reported at.
#[derive(Clone, Debug, PartialEq, Eq, Hash)]
pub enum ExpressionStoreDiagnostics {
    /// A `cfg` disables the node.
    InactiveCode { node: InFile<AstPtr>, cfg: CfgId },
    /// The lifetime of a jump names a label outside of its closure, coroutine or constant.
    UnreachableLabel { node: InFile<AstPtr>, name: Name },
    /// The lifetime of a jump names no label around it.
    UndeclaredLabel { node: InFile<AstPtr>, name: Name },
    /// A call names a macro that isn't found.
    UnresolvedMacroCall { node: InFile<AstPtr>, path: ModPath },
    /// An `await` stands in nothing async.
    AwaitOutsideOfAsync { node: InFile<AstPtr>, location: AwaitLocation },
    /// The item that requires a body has none.
    MissingBody { node: InFile<AstPtr>, kind: MissingBodyItemKind },
    /// A record that is assigned to has another one behind its fields.
    FruInDestructuringAssignment { node: InFile<AstPtr> },
    /// A parameter of a function without body is neither a plain name nor `_`.
    PatternArgInExternFn { node: InFile<AstPtr> },
}

kinds!(ExpressionStoreDiagnostics {
    InactiveCode { cfg, node },
    UnreachableLabel { name, node },
    UndeclaredLabel { name, node },
    UnresolvedMacroCall { node, path },
    AwaitOutsideOfAsync { location, node },
    MissingBody { kind, node },
    FruInDestructuringAssignment { node },
    PatternArgInExternFn { node },
});

impl ExpressionStoreDiagnostics {
    /// The node that the error is reported at.
    pub fn node(&self) -> InFile<AstPtr> {
        match self {
            ExpressionStoreDiagnostics::InactiveCode { node, .. }
            | ExpressionStoreDiagnostics::UnreachableLabel { node, .. }
            | ExpressionStoreDiagnostics::UndeclaredLabel { node, .. }
            | ExpressionStoreDiagnostics::UnresolvedMacroCall { node, .. }
            | ExpressionStoreDiagnostics::AwaitOutsideOfAsync { node, .. }
            | ExpressionStoreDiagnostics::MissingBody { node, .. }
            | ExpressionStoreDiagnostics::FruInDestructuringAssignment { node }
            | ExpressionStoreDiagnostics::PatternArgInExternFn { node } => *node,
        }
    }
}
