//! The question `from_path`.

use crate::answer::{Answer, Stop};
use crate::ast::{Type, TypeDecl};
use crate::ir::*;
use crate::query;
use crate::sheet;
use crate::supertypes::constraints;
use crate::words::{bytes, workspace};

/// The original's walk through named types, kept from running for ever
fn endless(ns: &Namespace, path: &Path) -> Result<bool, SemanticError> {
    let mut met = Vec::new();
    let mut here = path.clone();
    while !met.contains(&here) {
        met.push(here.clone());
        match ns.get(&here)?.0 {
            Named::Type(TypeDecl {
                underlying_type: Type::Named(name),
                ..
            }) => {
                here = ns.resolve(&here.scope, name)?.0;
            }
            _ => return Ok(false),
        }
    }
    Ok(true)
}

pub fn from_path(ns: &Namespace, known: &Constraints, path: &Path) -> Result<TypeRef, Stop> {
    if path.ty == ScopeType::Type && endless(ns, path)? {
        return Err(Stop::Endless);
    }
    Ok(TypeRef::from_path(ns, known, path)?)
}

pub fn answer(sheet: &str, query: &str, room: &str) -> Answer {
    workspace(room)?;
    let tree = sheet::read(&bytes(sheet))?;
    let path = query::path(&bytes(query))?;
    let ns = Namespace::new(&tree);
    match from_path(&ns, &constraints(&ns, &tree)?, &path)? {
        TypeRef::Entity { is_supertype, .. } => {
            Ok(format!("ok entity {} ws zero", u8::from(is_supertype)))
        }
        named => Ok(format!("ok named {} ws zero", flags(&named))),
    }
}

pub fn flags(type_ref: &TypeRef) -> String {
    let TypeRef::Named {
        is_simple,
        is_enumerate,
        ..
    } = type_ref
    else {
        panic!("not a named type: {:?}", type_ref);
    };
    format!("{} {}", u8::from(*is_simple), u8::from(*is_enumerate))
}
