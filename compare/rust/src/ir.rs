//! The five original files, unchanged, with what their own `ir/mod.rs` gives them.
#![allow(dead_code)] // the files hold more than the questions ask
#![allow(unknown_lints, mismatched_lifetime_syntaxes)] // newer than the files

#[path = "../../../docs/src/espr/src/ir/complex_entity.rs"]
mod complex_entity;
#[path = "../../../docs/src/espr/src/ir/constraints.rs"]
mod constraints;
#[path = "../../../docs/src/espr/src/ir/namespace.rs"]
mod namespace;
#[path = "../../../docs/src/espr/src/ir/scope.rs"]
mod scope;
#[path = "../../../docs/src/espr/src/ir/type_ref.rs"]
mod type_ref;

pub use complex_entity::*;
pub use constraints::*;
pub use namespace::*;
pub use scope::*;
pub use type_ref::*;

use crate::ast::SyntaxTree;
use thiserror::Error;

/// As in ir/mod.rs
#[derive(Debug, Error)]
pub enum SemanticError {
    #[error("Not found the Type {name} referred in scope {scope}")]
    TypeNotFound { name: String, scope: Scope },

    #[error("Invalid path: {0}")]
    InvalidPath(Path),

    #[error("Same item ({0}) is declared multiple times")]
    DuplicatedDeclaration(Path),
}

/// As in ir/mod.rs
pub trait Legalize: Sized {
    type Input;

    fn legalize(
        namespace: &Namespace,
        constraints: &Constraints,
        scope: &Scope,
        input: &Self::Input,
    ) -> Result<Self, SemanticError>;
}
