//! Questions on supertypes, each valued alone: a panic in one would spoil `Constraints::new`.

use crate::answer::{Answer, Stop};
use crate::ast::{Constraint, Schema, SyntaxTree};
use crate::effort;
use crate::ir::*;
use crate::query;
use crate::rows;
use crate::sheet;
use crate::words::{bytes, decimal, workspace};
use itertools::Itertools;

const NOT_A_SUPERTYPE: u8 = 16;
const NOT_IN_LIST: u8 = 17;

pub fn evaluate(ns: &Namespace, expr: &ConstraintExpr) -> Result<Instantiables, Stop> {
    effort::bearable(effort::of_expression(expr))?;
    Ok(Instantiables::from_constraint_expr(ns, expr)?)
}

fn list_of(tree: &SyntaxTree, path: &Path) -> Result<Instantiables, Stop> {
    let ns = Namespace::new(tree);
    let exprs = gather_constraint_expr(&ns, tree)?;
    let expr = exprs.get(path).ok_or(Stop::Absent(NOT_A_SUPERTYPE))?;
    evaluate(&ns, expr)
}

/// The supertypes in the order in which steps b, d and c first meet them
pub fn first_entries(ns: &Namespace, tree: &SyntaxTree) -> Result<Vec<Path>, SemanticError> {
    let mut met = Vec::new();
    for (scope, schema) in scopes(tree) {
        for entity in &schema.entities {
            if let Some(Constraint::SuperTypeRule(_)) = entity.constraint {
                met.push(Path::entity(&scope, &entity.name));
            }
        }
    }
    for (scope, schema) in scopes(tree) {
        let with_expr = schema
            .subtype_constraints
            .iter()
            .filter(|c| c.expr.is_some());
        for constraint in with_expr {
            met.push(ns.resolve(&scope, &constraint.entity)?.0);
        }
    }
    for (scope, schema) in scopes(tree) {
        let declared = schema.entities.iter().filter_map(|e| e.subtype_of.as_ref());
        for name in declared.flat_map(|subtype_of| &subtype_of.entity_references) {
            met.push(ns.resolve(&scope, name)?.0);
        }
    }
    Ok(met.into_iter().unique().collect())
}

fn scopes(tree: &SyntaxTree) -> impl Iterator<Item = (Scope, &Schema)> {
    let scope = |schema: &Schema| Scope::root().schema(&schema.name);
    tree.schemas
        .iter()
        .map(move |schema| (scope(schema), schema))
}

/// Which paths are supertypes, without their lists
pub fn constraints(ns: &Namespace, tree: &SyntaxTree) -> Result<Constraints, SemanticError> {
    let exprs = gather_constraint_expr(ns, tree)?;
    Ok(Constraints {
        instantiables: exprs.into_keys().map(|path| (path, Vec::new())).collect(),
    })
}

pub fn is_supertype(sheet: &str, query: &str, room: &str) -> Answer {
    workspace(room)?;
    let tree = sheet::read(&bytes(sheet))?;
    let path = query::path(&bytes(query))?;
    let answer = constraints(&Namespace::new(&tree), &tree)?.is_supertype(&path);
    Ok(format!("ok {} ws zero", u8::from(answer)))
}

pub fn supertype(sheet: &str, number: &str, room: &str) -> Answer {
    workspace(room)?;
    let tree = sheet::read(&bytes(sheet))?;
    let ns = Namespace::new(&tree);
    let known = constraints(&ns, &tree)?;
    let order = first_entries(&ns, &tree)?;
    assert_eq!(order.len(), known.instantiables.len());
    let path = order
        .get(decimal(number))
        .ok_or(Stop::Absent(NOT_IN_LIST))?;
    let (_named, index) = ns.get(path)?;
    Ok(format!("ok {} ws zero", index))
}

pub fn list(sheet: &str, query: &str, room: &str, buffer: &str) -> Answer {
    workspace(room)?;
    let tree = sheet::read(&bytes(sheet))?;
    let list = list_of(&tree, &query::path(&bytes(query))?)?;
    Ok(with_workspace(rows::list_answer(&list, buffer)?))
}

pub fn number_of(sheet: &str, query: &str, row: &str, room: &str) -> Answer {
    workspace(room)?;
    let tree = sheet::read(&bytes(sheet))?;
    let path = query::path(&bytes(query))?;
    let part = rows::part(row)?;
    let list = list_of(&tree, &path)?;
    let number = list.parts.iter().position(|p| *p == part);
    Ok(format!(
        "ok {} ws zero",
        number.ok_or(Stop::Absent(NOT_IN_LIST))?
    ))
}

pub fn set_at(sheet: &str, query: &str, number: &str, room: &str, buffer: &str) -> Answer {
    workspace(room)?;
    let tree = sheet::read(&bytes(sheet))?;
    let list = list_of(&tree, &query::path(&bytes(query))?)?;
    let part = list
        .parts
        .get(decimal(number))
        .ok_or(Stop::Absent(NOT_IN_LIST))?;
    Ok(with_workspace(rows::part_answer(part.clone(), buffer)?))
}

fn with_workspace(answer: String) -> String {
    match answer.as_str() {
        "beyond" => answer,
        _ => answer + " ws zero",
    }
}
