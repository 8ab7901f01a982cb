//! Body lowering that is proved: from a syntax tree to rust-analyzer's HIR.
//!
//! A [`Document`] holds a syntax tree, and what an environment answers about it. [`lower_body`] and its like hand it to a library whose
//! code is proved (`docs/EMBEDDING.md`), and read the result as Rust types. These have the names that they have in rust-analyzer: an
//! [`ExpressionStore`] with arenas of [`Expr`], [`Pat`], [`Binding`], [`TypeRef`] and others, and an [`ExpressionStoreSourceMap`] from
//! syntax to ids and back.
//!
#![cfg_attr(feature = "library", doc = "```")]
#![cfg_attr(not(feature = "library"), doc = "```ignore")]
//! use laxirbon::{Document, Expr, lower_body};
//!
//! // `fn f() { 'a: loop { break 'a } }`
//! let document = Document::from(
//!     r#"{"nodes": [
//!         {"k": "Fn", "body": 1},
//!         {"k": "BlockExpr", "tail": 2},
//!         {"k": "LoopExpr", "label": 3, "body": 4},
//!         {"k": "Label", "lifetime": "'a"},
//!         {"k": "BlockExpr", "tail": 5},
//!         {"k": "BreakExpr", "lifetime": "'a"}
//!     ]}"#,
//! );
//! let body = lower_body(&document)?;
//! for (id, expr) in body.store.exprs().iter() {
//!     if let Expr::Break { label: Some(label), .. } = expr {
//!         println!("expression {} ends the loop {}", id.into_raw(), body.store[*label].name);
//!     }
//! }
//! # assert_eq!(body.store.labels().len(), 1);
//! # Ok::<(), laxirbon::Error>(())
//! ```
//!
//! Without the feature `library` nothing is linked: the types, their JSON and the documents stay.
#![deny(unsafe_code)]

mod document;
#[cfg(feature = "library")]
mod error;
#[cfg(feature = "library")]
mod ffi;
mod hir;
mod json;
#[cfg(feature = "library")]
mod lower;

pub use document::{Cell, Document, DocumentBuilder, Node, Part};
#[cfg(feature = "library")]
pub use error::Error;
pub use hir::*;
pub use json::{Problem, ReadError};
#[cfg(feature = "library")]
pub use lower::{Mode, json, listing, lower_body, lower_fn, lower_pat, lower_path, lower_type};
