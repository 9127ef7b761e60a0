//! The original Rust's side of each question. It has no sheets: the shim of compare/rust reads them into its tree.

use crate::ast::SyntaxTree;
use crate::ir::*;
use crate::{query, sheet};
use itertools::Itertools;
use std::fmt::Write;

pub fn read(bytes: &[u8]) -> SyntaxTree {
    sheet::read(bytes).unwrap_or_else(|_| panic!("a sheet that the shim can't read"))
}

pub fn path(bytes: &[u8]) -> Path {
    query::path(bytes).unwrap_or_else(|_| panic!("no path"))
}

pub fn reference(bytes: &[u8]) -> (Scope, String) {
    query::reference(bytes).unwrap_or_else(|_| panic!("no reference"))
}

pub fn resolve(ns: &Namespace, (scope, name): &(Scope, String)) -> usize {
    ns.resolve(scope, name).expect("a name that is declared").1
}

/// From gathering to the list of one supertype
pub fn list(tree: &SyntaxTree, path: &Path) -> Instantiables {
    let ns = Namespace::new(tree);
    let exprs = gather_constraint_expr(&ns, tree).expect("names that are declared");
    Instantiables::from_constraint_expr(&ns, &exprs[path]).expect("paths that are declared")
}

/// The rows of a list, as document 01 has them
pub fn rows(list: &Instantiables) -> Vec<u16> {
    let row = |part: &PartialComplexEntity| {
        let mut row = vec![part.indices.len() as u16];
        row.extend(part.indices.iter().map(|index| *index as u16));
        row.resize(13, 0);
        row
    };
    list.parts.iter().flat_map(row).collect()
}

/// The listing's text; its supertypes stand in the order of a HashMap
pub fn listing(bytes: &[u8]) -> String {
    let tree = read(bytes);
    let ns = Namespace::new(&tree);
    let known = Constraints::new(&ns, &tree).expect("names that are declared");
    let mut text = String::new();
    for (path, parts) in &known.instantiables {
        writeln!(text, "supertype {} {}", path, parts.len()).unwrap();
        for (number, paths) in parts.iter().enumerate() {
            writeln!(text, "{} {}", number, paths.iter().join(",")).unwrap();
        }
    }
    for (path, named) in &ns.ast {
        if let Named::Type(_) = named {
            let [simple, enumerate] = flags(&ns, &known, path);
            writeln!(text, "type {} {} {}", path, simple, enumerate).unwrap();
        }
    }
    text
}

fn flags(ns: &Namespace, known: &Constraints, path: &Path) -> [u8; 2] {
    match TypeRef::from_path(ns, known, path) {
        Ok(TypeRef::Named {
            is_simple,
            is_enumerate,
            ..
        }) => [u8::from(is_simple), u8::from(is_enumerate)],
        _ => panic!("not a named type"),
    }
}
