//! The text of document 01's listing program, from the Rust's answers.

use crate::answer::{refusal, Answer, Stop};
use crate::ir::*;
use crate::sheet;
use crate::supertypes::{constraints, evaluate, first_entries};
use crate::types;
use crate::words::{bytes, hex_bytes};
use itertools::Itertools;
use std::panic::{catch_unwind, AssertUnwindSafe};

pub fn answer(sheet: &str) -> Answer {
    let tree = sheet::read(&bytes(sheet))?;
    let ns = Namespace::new(&tree);
    let exprs = gather_constraint_expr(&ns, &tree)?;
    let known = constraints(&ns, &tree)?;
    let mut text = String::new();
    for path in first_entries(&ns, &tree)? {
        text += &format!("supertype {} {}", path, supertype(&ns, &exprs[&path])?);
    }
    for (path, named) in &ns.ast {
        if let Named::Type(_) = named {
            text += &format!("type {} {}\n", path, flags(&ns, &known, path)?);
        }
    }
    Ok(format!("ok {}", hex_bytes(text.as_bytes())))
}

fn supertype(ns: &Namespace, expr: &ConstraintExpr) -> Result<String, Stop> {
    let valued = catch_unwind(AssertUnwindSafe(|| evaluate(ns, expr)));
    let Ok(list) = valued else {
        return Ok("refused 9\n".to_string());
    };
    let parts = list?.as_path(ns);
    let lines = parts
        .iter()
        .enumerate()
        .map(|(number, paths)| format!("{} {}\n", number, paths.iter().join(",")));
    Ok(format!("{}\n{}", parts.len(), lines.collect::<String>()))
}

fn flags(ns: &Namespace, known: &Constraints, path: &Path) -> Answer {
    match types::from_path(ns, known, path) {
        Ok(type_ref) => Ok(types::flags(&type_ref)),
        Err(Stop::Endless) => Ok("refused 13".to_string()),
        Err(Stop::Error(error)) => Ok(format!("refused {}", refusal(&error))),
        Err(stop) => Err(stop),
    }
}
