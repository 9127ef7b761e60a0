//! Document 01's sheet into the syntax tree; what its verdict refuses is `Malformed`.

use crate::answer::Stop;
use crate::ast::*;
use crate::fields::{name, Field, Fields};

const NAME: u8 = 0x10;
const EXPRESSIONS: [u8; 4] = [0x50, 0x51, 0x52, 0x53];
const DEPTH: usize = 5;

/// How many of each counted field may still come
struct Reader {
    schemas: usize,
    declarations: usize,
    constraints: usize,
    expressions: usize,
}

pub fn read(bytes: &[u8]) -> Result<SyntaxTree, Stop> {
    let mut reader = Reader {
        schemas: 8,
        declarations: 256,
        constraints: 64,
        expressions: 512,
    };
    let mut fields = Fields::cut(bytes)?;
    let mut schemas = Vec::new();
    while let Some(field) = fields.take(&[0x01]) {
        schemas.push(reader.schema(field.value)?);
    }
    fields.end()?;
    Ok(SyntaxTree { schemas })
}

fn spend(left: &mut usize) -> Result<(), Stop> {
    *left = left.checked_sub(1).ok_or(Stop::Malformed)?;
    Ok(())
}

impl Reader {
    fn schema(&mut self, value: &[u8]) -> Result<Schema, Stop> {
        spend(&mut self.schemas)?;
        let mut fields = Fields::cut(value)?;
        let mut schema = Schema {
            name: name(fields.need(&[NAME])?.value)?,
            entities: Vec::new(),
            types: Vec::new(),
            subtype_constraints: Vec::new(),
        };
        while let Some(field) = fields.take(&[0x20]) {
            schema.types.push(self.type_decl(field.value)?);
        }
        while let Some(field) = fields.take(&[0x30]) {
            schema.entities.push(self.entity(field.value)?);
        }
        while let Some(field) = fields.take(&[0x40]) {
            schema
                .subtype_constraints
                .push(self.constraint(field.value)?);
        }
        fields.end()?;
        Ok(schema)
    }

    fn type_decl(&mut self, value: &[u8]) -> Result<TypeDecl, Stop> {
        spend(&mut self.declarations)?;
        let mut fields = Fields::cut(value)?;
        let type_id = name(fields.need(&[NAME])?.value)?;
        let underlying_type = underlying(fields.need(&[0x21, 0x22, 0x23, 0x24])?)?;
        fields.end()?;
        Ok(TypeDecl {
            type_id,
            underlying_type,
        })
    }

    fn entity(&mut self, value: &[u8]) -> Result<Entity, Stop> {
        spend(&mut self.declarations)?;
        let mut fields = Fields::cut(value)?;
        let name = name(fields.need(&[NAME])?.value)?;
        let constraint = match fields.take(&[0x31, 0x32, 0x33]) {
            Some(field) => Some(self.mark(field)?),
            None => None,
        };
        let subtype_of = match fields.take(&[0x34]) {
            Some(field) => Some(self.subtype_of(field.value)?),
            None => None,
        };
        fields.end()?;
        Ok(Entity {
            name,
            constraint,
            subtype_of,
        })
    }

    fn mark(&mut self, field: Field) -> Result<Constraint, Stop> {
        let mut fields = Fields::cut(field.value)?;
        let mark = match field.tag {
            0x31 => Constraint::SuperTypeRule(self.expression(fields.need(&EXPRESSIONS)?, DEPTH)?),
            0x32 => Constraint::AbstractEntity,
            _ => Constraint::AbstractSuperType(self.maybe_expression(&mut fields)?),
        };
        fields.end()?;
        Ok(mark)
    }

    fn subtype_of(&mut self, value: &[u8]) -> Result<SubTypeDecl, Stop> {
        let mut fields = Fields::cut(value)?;
        let mut entity_references = Vec::new();
        while let Some(field) = fields.take(&[NAME]) {
            spend(&mut self.expressions)?;
            entity_references.push(name(field.value)?);
        }
        fields.end()?;
        Ok(SubTypeDecl { entity_references })
    }

    fn constraint(&mut self, value: &[u8]) -> Result<SubTypeConstraint, Stop> {
        spend(&mut self.constraints)?;
        let mut fields = Fields::cut(value)?;
        let entity = name(fields.need(&[NAME])?.value)?;
        let expr = self.maybe_expression(&mut fields)?;
        fields.end()?;
        Ok(SubTypeConstraint { entity, expr })
    }

    fn maybe_expression(
        &mut self,
        fields: &mut Fields,
    ) -> Result<Option<SuperTypeExpression>, Stop> {
        match fields.take(&EXPRESSIONS) {
            Some(field) => Ok(Some(self.expression(field, DEPTH)?)),
            None => Ok(None),
        }
    }

    fn expression(&mut self, field: Field, depth: usize) -> Result<SuperTypeExpression, Stop> {
        spend(&mut self.expressions)?;
        let deeper = depth.checked_sub(1).ok_or(Stop::Malformed)?;
        if field.tag == 0x50 {
            return Ok(SuperTypeExpression::Reference(name(field.value)?));
        }
        let mut fields = Fields::cut(field.value)?;
        let mut terms = Vec::new();
        while let Some(term) = fields.take(&EXPRESSIONS) {
            terms.push(self.expression(term, deeper)?);
        }
        fields.end()?;
        Ok(match field.tag {
            0x51 => SuperTypeExpression::AndOr { factors: terms },
            0x52 => SuperTypeExpression::And { terms },
            _ => SuperTypeExpression::OneOf { exprs: terms },
        })
    }
}

fn underlying(field: Field) -> Result<Type, Stop> {
    match (field.tag, field.value) {
        (0x21, [simple]) => Ok(Type::Simple(simple_type(*simple)?)),
        (0x22, []) => Ok(Type::Enumeration),
        (0x23, value) => Ok(Type::Named(name(value)?)),
        (0x24, []) => Ok(Type::Select),
        _ => Err(Stop::Malformed),
    }
}

fn simple_type(place: u8) -> Result<SimpleType, Stop> {
    use SimpleType::*;
    let order = [Number, Real, Integer, Logical, Boolen, String_, Binary];
    order
        .get(usize::from(place))
        .copied()
        .ok_or(Stop::Malformed)
}
