//! Operators, and the kinds of literals.

use crate::json::words;

/// The kind of a literal.
#[derive(Clone, Copy, Debug, PartialEq, Eq, Hash)]
pub enum LiteralKind {
    Str,
    ByteStr,
    CStr,
    Char,
    Bool,
    Int,
    Float,
}

words!(LiteralKind {
    LiteralKind::Str => "Str",
    LiteralKind::ByteStr => "ByteStr",
    LiteralKind::CStr => "CStr",
    LiteralKind::Char => "Char",
    LiteralKind::Bool => "Bool",
    LiteralKind::Int => "Int",
    LiteralKind::Float => "Float",
});

/// The operator of a prefix expression.
#[derive(Clone, Copy, Debug, PartialEq, Eq, Hash)]
pub enum UnaryOp {
    Deref,
    Not,
    Neg,
}

words!(UnaryOp {
    UnaryOp::Deref => "*",
    UnaryOp::Not => "!",
    UnaryOp::Neg => "-",
});

/// The operator of a lazy boolean expression.
#[derive(Clone, Copy, Debug, PartialEq, Eq, Hash)]
pub enum LogicOp {
    And,
    Or,
}

/// The side that an operator of order asks for.
#[derive(Clone, Copy, Debug, PartialEq, Eq, Hash)]
pub enum Ordering {
    Less,
    Greater,
}

/// The operator of a comparison.
#[derive(Clone, Copy, Debug, PartialEq, Eq, Hash)]
pub enum CmpOp {
    Eq { negated: bool },
    Ord { ordering: Ordering, strict: bool },
}

/// The operator of arithmetic, of shifts or of bits.
#[derive(Clone, Copy, Debug, PartialEq, Eq, Hash)]
pub enum ArithOp {
    Add,
    Mul,
    Sub,
    Div,
    Rem,
    Shl,
    Shr,
    BitXor,
    BitOr,
    BitAnd,
}

/// The operator of a binary expression. An assignment without operator is an expression of its own, except in broken code.
#[derive(Clone, Copy, Debug, PartialEq, Eq, Hash)]
pub enum BinaryOp {
    LogicOp(LogicOp),
    ArithOp(ArithOp),
    CmpOp(CmpOp),
    Assignment { op: Option<ArithOp> },
}

words!(BinaryOp {
    BinaryOp::LogicOp(LogicOp::And) => "&&",
    BinaryOp::LogicOp(LogicOp::Or) => "||",
    BinaryOp::ArithOp(ArithOp::Add) => "+",
    BinaryOp::ArithOp(ArithOp::Mul) => "*",
    BinaryOp::ArithOp(ArithOp::Sub) => "-",
    BinaryOp::ArithOp(ArithOp::Div) => "/",
    BinaryOp::ArithOp(ArithOp::Rem) => "%",
    BinaryOp::ArithOp(ArithOp::Shl) => "<<",
    BinaryOp::ArithOp(ArithOp::Shr) => ">>",
    BinaryOp::ArithOp(ArithOp::BitXor) => "^",
    BinaryOp::ArithOp(ArithOp::BitOr) => "|",
    BinaryOp::ArithOp(ArithOp::BitAnd) => "&",
    BinaryOp::CmpOp(CmpOp::Eq { negated: false }) => "==",
    BinaryOp::CmpOp(CmpOp::Eq { negated: true }) => "!=",
    BinaryOp::CmpOp(CmpOp::Ord { ordering: Ordering::Less, strict: false }) => "<=",
    BinaryOp::CmpOp(CmpOp::Ord { ordering: Ordering::Less, strict: true }) => "<",
    BinaryOp::CmpOp(CmpOp::Ord { ordering: Ordering::Greater, strict: false }) => ">=",
    BinaryOp::CmpOp(CmpOp::Ord { ordering: Ordering::Greater, strict: true }) => ">",
    BinaryOp::Assignment { op: Some(ArithOp::Add) } => "+=",
    BinaryOp::Assignment { op: Some(ArithOp::Mul) } => "*=",
    BinaryOp::Assignment { op: Some(ArithOp::Sub) } => "-=",
    BinaryOp::Assignment { op: Some(ArithOp::Div) } => "/=",
    BinaryOp::Assignment { op: Some(ArithOp::Rem) } => "%=",
    BinaryOp::Assignment { op: Some(ArithOp::Shl) } => "<<=",
    BinaryOp::Assignment { op: Some(ArithOp::Shr) } => ">>=",
    BinaryOp::Assignment { op: Some(ArithOp::BitXor) } => "^=",
    BinaryOp::Assignment { op: Some(ArithOp::BitOr) } => "|=",
    BinaryOp::Assignment { op: Some(ArithOp::BitAnd) } => "&=",
    BinaryOp::Assignment { op: None } => "=",
});

/// The operator of a range.
#[derive(Clone, Copy, Debug, PartialEq, Eq, Hash)]
pub enum RangeOp {
    /// `..`
    Exclusive,
    /// `..=`
    Inclusive,
}

words!(RangeOp {
    RangeOp::Exclusive => "..",
    RangeOp::Inclusive => "..=",
});

/// What a reference or a raw pointer allows.
#[derive(Clone, Copy, Debug, PartialEq, Eq, Hash)]
pub enum Mutability {
    Shared,
    Mut,
}

words!(Mutability {
    Mutability::Shared => "shared",
    Mutability::Mut => "mut",
});

/// What a reference expression makes.
#[derive(Clone, Copy, Debug, PartialEq, Eq, Hash)]
pub enum Rawness {
    RawPtr,
    Ref,
}

words!(Rawness {
    Rawness::RawPtr => "raw",
    Rawness::Ref => "ref",
});
