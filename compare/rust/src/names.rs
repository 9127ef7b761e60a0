//! Questions on names: numbering, `resolve`, `get`, `as_path`, the order of scopes.

use crate::answer::{Answer, Stop};
use crate::ir::{Namespace, Path};
use crate::query;
use crate::sheet;
use crate::words::{bytes, decimal, hex_bytes};

/// That the shim can read the sheet is all that is known here of a verdict.
pub fn verdict(sheet: &str) -> Answer {
    sheet::read(&bytes(sheet))?;
    Ok("ok".to_string())
}

pub fn resolve(sheet: &str, query: &str) -> Answer {
    let tree = sheet::read(&bytes(sheet))?;
    let (scope, name) = query::reference(&bytes(query))?;
    let (_path, index) = Namespace::new(&tree).resolve(&scope, &name)?;
    Ok(format!("ok {}", index))
}

pub fn get(sheet: &str, query: &str) -> Answer {
    let tree = sheet::read(&bytes(sheet))?;
    let path = query::path(&bytes(query))?;
    let ns = Namespace::new(&tree);
    let (_named, index) = ns.get(&path)?;
    Ok(format!("ok {}", index))
}

/// The path of a number, as PartialComplexEntity::as_path reads it
fn as_path(sheet: &str, index: &str) -> Result<Path, Stop> {
    let tree = sheet::read(&bytes(sheet))?;
    let ns = Namespace::new(&tree);
    let (path, _named) = &ns[decimal(index)];
    Ok(path.clone())
}

pub fn declared(sheet: &str, index: &str) -> Answer {
    as_path(sheet, index)?;
    Ok("ok".to_string())
}

pub fn schema_name(sheet: &str, index: &str) -> Answer {
    let path = as_path(sheet, index)?;
    Ok(format!(
        "ok {}",
        hex_bytes(path.scope.to_string().as_bytes())
    ))
}

pub fn item_name(sheet: &str, index: &str) -> Answer {
    let path = as_path(sheet, index)?;
    Ok(format!("ok {}", hex_bytes(path.name.as_bytes())))
}

pub fn scope_order(left: &str, right: &str) -> Answer {
    let left = query::scope(&bytes(left))?;
    let right = query::scope(&bytes(right))?;
    Ok(match left.partial_cmp(&right) {
        Some(order) => format!("ok {}", order as i8),
        None => "ok none".to_string(),
    })
}
