//! Document 01's queries into scopes and paths.

use crate::answer::Stop;
use crate::fields::{name, Fields};
use crate::ir::{Path, Scope, ScopeType};

const STEPS: [u8; 10] = [0x60, 0x61, 0x62, 0x63, 0x64, 0x65, 0x66, 0x67, 0x68, 0x69];
const MOST_IN_SCOPE: usize = 3;

fn kind(tag: u8) -> ScopeType {
    use ScopeType::*;
    let order = [
        Entity, Alias, Function, Procedure, Query, Repeat, Rule, Schema, SubType, Type,
    ];
    order[usize::from(tag - STEPS[0])]
}

fn steps(fields: &mut Fields) -> Result<Vec<(ScopeType, String)>, Stop> {
    let mut steps = Vec::new();
    while let Some(field) = fields.take(&STEPS) {
        steps.push((kind(field.tag), name(field.value)?));
    }
    Ok(steps)
}

fn as_scope(steps: &[(ScopeType, String)]) -> Result<Scope, Stop> {
    if steps.len() > MOST_IN_SCOPE {
        return Err(Stop::Malformed);
    }
    let push = |scope: Scope, (ty, name): &(ScopeType, String)| scope.pushed(*ty, name);
    Ok(steps.iter().fold(Scope::root(), push))
}

pub fn scope(bytes: &[u8]) -> Result<Scope, Stop> {
    let mut fields = Fields::cut(bytes)?;
    let steps = steps(&mut fields)?;
    fields.end()?;
    as_scope(&steps)
}

pub fn path(bytes: &[u8]) -> Result<Path, Stop> {
    let mut fields = Fields::cut(bytes)?;
    let mut steps = steps(&mut fields)?;
    fields.end()?;
    let (ty, name) = steps.pop().ok_or(Stop::Malformed)?;
    Ok(Path::new(&as_scope(&steps)?, ty, &name))
}

/// A scope, and the name to be resolved in it
pub fn reference(bytes: &[u8]) -> Result<(Scope, String), Stop> {
    let mut fields = Fields::cut(bytes)?;
    let steps = steps(&mut fields)?;
    let name = name(fields.need(&[0x10])?.value)?;
    fields.end()?;
    Ok((as_scope(&steps)?, name))
}
