//! Expressions, and what stands in them.

use super::ids::{BlockId, ExprId, HygieneId, LabelId, MacroDefId, PatId, TypeRefId};
use super::name::Name;
use super::ops::{BinaryOp, LiteralKind, Mutability, Rawness, UnaryOp};
use super::path::{GenericArgs, Path};
use super::type_ref::ConstRef;
use crate::json::{kinds, record, words};

/// A literal as written. `negative` says that a pattern puts a minus before it.
#[derive(Clone, Debug, PartialEq, Eq, Hash)]
pub struct Literal {
    pub negative: bool,
    pub kind: LiteralKind,
    pub text: String,
    pub suffix: Option<String>,
}

record!(Literal { kind, negative, suffix, text });

/// A label, written or made.
#[derive(Clone, Debug, PartialEq, Eq, Hash)]
pub struct Label {
    pub name: Name,
}

record!(Label { name });

/// What a loop was written as.
#[derive(Clone, Copy, Debug, PartialEq, Eq, Hash)]
pub enum LoopSource {
    Loop,
    While,
    ForLoop,
}

words!(LoopSource {
    LoopSource::Loop => "loop",
    LoopSource::While => "while",
    LoopSource::ForLoop => "for",
});

/// A statement of a block.
#[derive(Clone, Debug, PartialEq, Eq, Hash)]
pub enum Statement {
    Let {
        pat: PatId,
        type_ref: Option<TypeRefId>,
        initializer: Option<ExprId>,
        else_branch: Option<ExprId>,
    },
    Expr {
        expr: ExprId,
        has_semi: bool,
    },
    Item,
    /// A macro is defined for the statements behind it.
    MacroDef(MacroDefId),
}

kinds!(Statement {
    Let { else_branch, initializer, pat, type_ref },
    Expr { expr, has_semi },
    Item,
    MacroDef(id),
});

/// An arm of a `match`.
#[derive(Clone, Copy, Debug, PartialEq, Eq, Hash)]
pub struct MatchArm {
    pub pat: PatId,
    pub guard: Option<ExprId>,
    pub expr: ExprId,
}

record!(MatchArm { expr, guard, pat });

/// A field of a record expression.
#[derive(Clone, Debug, PartialEq, Eq, Hash)]
pub struct RecordLitField {
    pub name: Name,
    pub expr: ExprId,
}

record!(RecordLitField { expr, name });

/// What the other fields of a record expression come from: nothing, their defaults (`..`), or a record (`..r`).
#[derive(Clone, Copy, Debug, PartialEq, Eq, Hash)]
pub enum RecordSpread {
    None,
    FieldDefaults,
    Expr(ExprId),
}

kinds!(RecordSpread { None, FieldDefaults, Expr(expr) });

/// An array by its elements, or by what is repeated and how often.
#[derive(Clone, Debug, PartialEq, Eq, Hash)]
pub enum Array {
    ElementList { elements: Vec<ExprId> },
    Repeat { initializer: ExprId, repeat: ConstRef },
}

kinds!(Array { ElementList = "Array" { elements }, Repeat { initializer, repeat } });

/// Whether a coroutine may be moved once it runs.
#[derive(Clone, Copy, Debug, PartialEq, Eq, Hash)]
pub enum Movability {
    Static,
    Movable,
}

/// What a coroutine was written with.
#[derive(Clone, Copy, Debug, PartialEq, Eq, Hash)]
pub enum CoroutineKind {
    Async,
    Gen,
    AsyncGen,
}

/// What a coroutine was made of.
#[derive(Clone, Copy, Debug, PartialEq, Eq, Hash)]
pub enum CoroutineSource {
    Block,
    Closure,
    Fn,
}

/// What a closure is. One whose body yields is an old coroutine. A block with `async` or `gen` is a coroutine, and so is the body of a
/// closure or a function with one of these. Such a closure is a coroutine closure.
#[derive(Clone, Copy, Debug, PartialEq, Eq, Hash)]
pub enum ClosureKind {
    Closure,
    OldCoroutine(Movability),
    Coroutine { kind: CoroutineKind, source: CoroutineSource },
    CoroutineClosure(CoroutineKind),
}

const fn coroutine(kind: CoroutineKind, source: CoroutineSource) -> ClosureKind {
    ClosureKind::Coroutine { kind, source }
}

words!(ClosureKind {
    ClosureKind::Closure => "closure",
    ClosureKind::OldCoroutine(Movability::Movable) => "old:movable",
    ClosureKind::OldCoroutine(Movability::Static) => "old:static",
    coroutine(CoroutineKind::Async, CoroutineSource::Block) => "co:async:block",
    coroutine(CoroutineKind::Async, CoroutineSource::Closure) => "co:async:closure",
    coroutine(CoroutineKind::Async, CoroutineSource::Fn) => "co:async:fn",
    coroutine(CoroutineKind::Gen, CoroutineSource::Block) => "co:gen:block",
    coroutine(CoroutineKind::Gen, CoroutineSource::Closure) => "co:gen:closure",
    coroutine(CoroutineKind::Gen, CoroutineSource::Fn) => "co:gen:fn",
    coroutine(CoroutineKind::AsyncGen, CoroutineSource::Block) => "co:asyncgen:block",
    coroutine(CoroutineKind::AsyncGen, CoroutineSource::Closure) => "co:asyncgen:closure",
    coroutine(CoroutineKind::AsyncGen, CoroutineSource::Fn) => "co:asyncgen:fn",
    ClosureKind::CoroutineClosure(CoroutineKind::Async) => "coclosure:async",
    ClosureKind::CoroutineClosure(CoroutineKind::Gen) => "coclosure:gen",
    ClosureKind::CoroutineClosure(CoroutineKind::AsyncGen) => "coclosure:asyncgen",
});

/// How a closure takes what its body uses of the outside.
#[derive(Clone, Copy, Debug, PartialEq, Eq, Hash)]
pub enum CaptureBy {
    Value,
    Ref,
}

words!(CaptureBy {
    CaptureBy::Value => "move",
    CaptureBy::Ref => "ref",
});

/// An expression, whose parts stand in the same store. A path has the hygiene that its name is looked up with.
#[derive(Clone, Debug, PartialEq, Eq, Hash)]
pub enum Expr {
    Missing,
    Path {
        path: Path,
        hygiene: HygieneId,
    },
    If {
        condition: ExprId,
        then_branch: ExprId,
        else_branch: Option<ExprId>,
    },
    /// `let` as a condition.
    Let {
        pat: PatId,
        expr: ExprId,
    },
    Block {
        is_unsafe: bool,
        label: Option<LabelId>,
        id: Option<BlockId>,
        statements: Vec<Statement>,
        tail: Option<ExprId>,
    },
    /// A `const` block, around the block that is its body.
    Const(ConstRef),
    Loop {
        body: ExprId,
        label: Option<LabelId>,
        source: LoopSource,
    },
    Call {
        callee: ExprId,
        args: Vec<ExprId>,
    },
    Match {
        expr: ExprId,
        arms: Vec<MatchArm>,
    },
    Continue {
        label: Option<LabelId>,
    },
    Break {
        label: Option<LabelId>,
        expr: Option<ExprId>,
    },
    Literal(Literal),
    MethodCall {
        receiver: ExprId,
        method_name: Name,
        generic_args: Option<GenericArgs>,
        args: Vec<ExprId>,
    },
    RecordLit {
        path: Path,
        fields: Vec<RecordLitField>,
        spread: RecordSpread,
    },
    Field {
        expr: ExprId,
        name: Name,
    },
    UnaryOp {
        op: UnaryOp,
        expr: ExprId,
    },
    BinaryOp {
        op: Option<BinaryOp>,
        lhs: ExprId,
        rhs: ExprId,
    },
    /// `target = value`. Places of the target are expressions in its pattern.
    Assignment {
        target: PatId,
        value: ExprId,
    },
    Index {
        base: ExprId,
        index: ExprId,
    },
    Ref {
        rawness: Rawness,
        mutability: Mutability,
        expr: ExprId,
    },
    /// A closure, with a type for each of its parameters that has one.
    Closure {
        args: Vec<PatId>,
        arg_types: Vec<Option<TypeRefId>>,
        ret_type: Option<TypeRefId>,
        body: ExprId,
        closure_kind: ClosureKind,
        capture_by: CaptureBy,
    },
    Tuple {
        exprs: Vec<ExprId>,
    },
    Array(Array),
    Return {
        expr: Option<ExprId>,
    },
    Become {
        expr: ExprId,
    },
    Yield {
        expr: Option<ExprId>,
    },
    Yeet {
        expr: Option<ExprId>,
    },
    Await {
        expr: ExprId,
    },
    Cast {
        expr: ExprId,
        type_ref: TypeRefId,
    },
    OffsetOf {
        container: TypeRefId,
        fields: Vec<Name>,
    },
    Underscore,
    IncludeBytes,
}

kinds!(Expr {
    Missing,
    Path { hygiene, path },
    If { condition, else_branch, then_branch },
    Let { expr, pat },
    Block { id, is_unsafe, label, statements, tail },
    Const(expr),
    Loop { body, label, source },
    Call { args, callee },
    Match { arms, expr },
    Continue { label },
    Break { expr, label },
    Literal[Literal],
    MethodCall { args, generic_args, method_name, receiver },
    RecordLit { fields, path, spread },
    Field { expr, name },
    UnaryOp { expr, op },
    BinaryOp { lhs, op, rhs },
    Assignment { target, value },
    Index { base, index },
    Ref { expr, mutability, rawness },
    Closure { arg_types, args, body, capture_by, closure_kind, ret_type },
    Tuple { exprs },
    Array = "Array" | "Repeat" [Array],
    Return { expr },
    Become { expr },
    Yield { expr },
    Yeet { expr },
    Await { expr },
    Cast { expr, type_ref },
    OffsetOf { container, fields },
    Underscore,
    IncludeBytes,
});

impl Expr {
    /// Hands on the expressions that this one names, in the order in which its parts stand in it. Those in its patterns and in the
    /// arguments of its paths aren't among them.
    pub fn for_each_child(&self, mut f: impl FnMut(ExprId)) {
        match self {
            Expr::If { condition, then_branch, else_branch } => {
                [Some(*condition), Some(*then_branch), *else_branch].into_iter().flatten().for_each(f);
            }
            Expr::Block { statements, tail, .. } => {
                statements.iter().for_each(|statement| statement.for_each_child(&mut f));
                tail.iter().copied().for_each(f);
            }
            Expr::Call { callee: first, args } | Expr::MethodCall { receiver: first, args, .. } => {
                std::iter::once(first).chain(args).copied().for_each(f);
            }
            Expr::Match { expr, arms } => {
                f(*expr);
                arms.iter().flat_map(|arm| arm.guard.into_iter().chain([arm.expr])).for_each(f);
            }
            Expr::RecordLit { fields, spread, .. } => {
                fields.iter().for_each(|field| f(field.expr));
                if let RecordSpread::Expr(expr) = spread {
                    f(*expr);
                }
            }
            Expr::Tuple { exprs: parts } | Expr::Array(Array::ElementList { elements: parts }) => parts.iter().copied().for_each(f),
            Expr::Array(Array::Repeat { initializer, repeat }) => [*initializer, repeat.expr].into_iter().for_each(f),
            Expr::BinaryOp { lhs: first, rhs: second, .. } | Expr::Index { base: first, index: second } => {
                [*first, *second].into_iter().for_each(f);
            }
            _ => self.only_child().into_iter().for_each(f),
        }
    }

    /// The expression that this one names, if it is of a kind that names no more than one.
    fn only_child(&self) -> Option<ExprId> {
        match self {
            Expr::Const(ConstRef { expr })
            | Expr::Loop { body: expr, .. }
            | Expr::Closure { body: expr, .. }
            | Expr::Assignment { value: expr, .. }
            | Expr::Let { expr, .. }
            | Expr::Field { expr, .. }
            | Expr::UnaryOp { expr, .. }
            | Expr::Ref { expr, .. }
            | Expr::Become { expr }
            | Expr::Await { expr }
            | Expr::Cast { expr, .. } => Some(*expr),
            Expr::Break { expr, .. } | Expr::Return { expr } | Expr::Yield { expr } | Expr::Yeet { expr } => *expr,
            _ => None,
        }
    }
}

impl Statement {
    fn for_each_child(&self, f: impl FnMut(ExprId)) {
        match self {
            Statement::Let { initializer, else_branch, .. } => [*initializer, *else_branch].into_iter().flatten().for_each(f),
            Statement::Expr { expr, .. } => std::iter::once(*expr).for_each(f),
            Statement::Item | Statement::MacroDef(_) => {}
        }
    }
}
