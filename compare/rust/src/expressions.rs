//! The question `eval`: an expression over indices, valued without a sheet of its own.

use crate::answer::{Answer, Stop};
use crate::ast::{Entity, Schema, SyntaxTree};
use crate::fields::{Field, Fields};
use crate::ir::{ConstraintExpr, Namespace, Path, Scope};
use crate::rows::list_answer;
use crate::supertypes::evaluate;
use crate::words::bytes;

/// 256 entities, so that every index is some entity's number
fn every_index() -> SyntaxTree {
    let entity = |index| Entity {
        name: entity_name(index),
        constraint: None,
        subtype_of: None,
    };
    SyntaxTree {
        schemas: vec![Schema {
            name: "s".to_string(),
            entities: (0..256).map(entity).collect(),
            types: Vec::new(),
            subtype_constraints: Vec::new(),
        }],
    }
}

fn entity_name(index: usize) -> String {
    format!("e{}", index)
}

fn expression(field: Field) -> Result<ConstraintExpr, Stop> {
    if let (0x50, [high, low]) = (field.tag, field.value) {
        let index = usize::from(*high) << 8 | usize::from(*low);
        let scope = Scope::root().schema("s");
        return Ok(ConstraintExpr::Reference(Path::entity(
            &scope,
            &entity_name(index),
        )));
    }
    let mut fields = Fields::cut(field.value)?;
    let mut terms = Vec::new();
    while let Some(term) = fields.take(&[0x50, 0x51, 0x52, 0x53]) {
        terms.push(expression(term)?);
    }
    fields.end()?;
    Ok(match field.tag {
        0x51 => ConstraintExpr::AndOr(terms),
        0x52 => ConstraintExpr::And(terms),
        _ => ConstraintExpr::OneOf(terms),
    })
}

pub fn eval(word: &str, room: &str) -> Answer {
    let bytes = bytes(word);
    let mut fields = Fields::cut(&bytes)?;
    let expr = expression(fields.need(&[0x50, 0x51, 0x52, 0x53])?)?;
    let tree = every_index();
    list_answer(&evaluate(&Namespace::new(&tree), &expr)?, room)
}
