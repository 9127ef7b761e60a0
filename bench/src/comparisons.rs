//! How often two names are compared for the list of a supertype: the walks over declarations of the Rust and of the port, counted over the tree.
//! In the sheets that are measured no two schemas and no two declarations of a schema have one name.

use crate::ast::*;

pub struct Compared {
    /// At least: what its hash maps compare is left out.
    pub rust: usize,
    pub port: usize,
}

/// A name that stands in a schema, by the schema's number
type Named<'a> = (usize, &'a str);

pub fn in_list(tree: &SyntaxTree, schema: &str, item: &str) -> Compared {
    let at = tree.schemas.iter().position(|s| s.name == schema);
    let asked = (at.expect("a schema of the name"), item);
    let names = gathered(tree);
    let owners = owners(tree);
    let valued = valued(tree, asked);
    let sum = |named: &[Named], cost: &dyn Fn(&SyntaxTree, Named) -> usize| -> usize {
        named.iter().map(|name| cost(tree, *name)).sum()
    };
    Compared {
        rust: sum(&names, &resolve) + sum(&valued, &get),
        port: last_schemas(tree)
            + sum(&names, &place)
            + sum(&owners, &of_its_kind)
            + first_of(tree, asked),
    }
}

/// Types, then entities
fn declared(schema: &Schema) -> impl Iterator<Item = &str> {
    let types = schema.types.iter().map(|it| it.type_id.as_str());
    types.chain(schema.entities.iter().map(|it| it.name.as_str()))
}

/// How many names are looked at until it is found
fn place(tree: &SyntaxTree, (schema, name): Named) -> usize {
    let found = declared(&tree.schemas[schema]).position(|it| it == name);
    1 + found.expect("a name that is declared")
}

/// Namespace::resolve: the scope in the map, then the names of the schema
fn resolve(tree: &SyntaxTree, named: Named) -> usize {
    1 + place(tree, named)
}

/// Namespace::get: each declaration's schema; its name too, where schema and kind are equal
fn get(tree: &SyntaxTree, named: Named) -> usize {
    let before = tree.schemas[..named.0].iter().map(|s| declared(s).count());
    before.sum::<usize>() + place(tree, named) + of_its_kind(tree, named)
}

/// How many names of its own kind are looked at until it is found
fn of_its_kind(tree: &SyntaxTree, named: Named) -> usize {
    let types = tree.schemas[named.0].types.len();
    let place = place(tree, named);
    place
        .checked_sub(types)
        .filter(|it| *it > 0)
        .unwrap_or(place)
}

/// declarations::last_schema: every schema's name, for each schema in each of gathering's passes that has a name to resolve there
fn last_schemas(tree: &SyntaxTree) -> usize {
    tree.schemas.len() * tree.schemas.iter().map(passes).sum::<usize>()
}

/// How many of the passes, over rules, constraints and names in SUBTYPE OF, have a name to resolve in the schema
fn passes(schema: &Schema) -> usize {
    let entities = || schema.entities.iter();
    let given = [
        entities().any(|it| rule(it).is_some()),
        schema
            .subtype_constraints
            .iter()
            .any(|it| it.expr.is_some()),
        entities().any(|it| above(it).next().is_some()),
    ];
    given.iter().filter(|it| **it).count()
}

/// declarations::first_of: the schemas' names up to its own, then those of its kind
fn first_of(tree: &SyntaxTree, named: Named) -> usize {
    named.0 + 1 + of_its_kind(tree, named)
}

fn references<'a>(expr: &'a SuperTypeExpression, into: &mut Vec<&'a str>) {
    use SuperTypeExpression::*;
    match expr {
        Reference(name) => into.push(name),
        AndOr { factors: terms } | And { terms } | OneOf { exprs: terms } => {
            terms.iter().for_each(|term| references(term, into));
        }
    }
}

fn rule(entity: &Entity) -> Option<&SuperTypeExpression> {
    match &entity.constraint {
        Some(Constraint::SuperTypeRule(expr)) => Some(expr),
        _ => None,
    }
}

fn above(entity: &Entity) -> impl Iterator<Item = &str> {
    let declared = entity.subtype_of.iter();
    declared.flat_map(|it| it.entity_references.iter().map(String::as_str))
}

/// Every name that gathering resolves
fn gathered(tree: &SyntaxTree) -> Vec<Named<'_>> {
    let mut all = Vec::new();
    for (number, schema) in tree.schemas.iter().enumerate() {
        let mut names = Vec::new();
        for entity in &schema.entities {
            rule(entity)
                .into_iter()
                .for_each(|expr| references(expr, &mut names));
            names.extend(above(entity));
        }
        for constraint in &schema.subtype_constraints {
            if let Some(expr) = &constraint.expr {
                names.push(&constraint.entity);
                references(expr, &mut names);
            }
        }
        all.extend(names.into_iter().map(|name| (number, name)));
    }
    all
}

/// Every entity whose own number gathering looks for
fn owners(tree: &SyntaxTree) -> Vec<Named<'_>> {
    let mut all = Vec::new();
    for (number, schema) in tree.schemas.iter().enumerate() {
        for entity in &schema.entities {
            let times = rule(entity).iter().count() + entity.subtype_of.iter().count();
            all.extend((0..times).map(|_| (number, entity.name.as_str())));
        }
    }
    all
}

/// The references that the supertype's expression has, by its constraints, its rule and its subtypes
fn valued<'a>(tree: &'a SyntaxTree, (number, item): Named) -> Vec<(usize, &'a str)> {
    let schema = &tree.schemas[number];
    let mut names = Vec::new();
    for entity in &schema.entities {
        if entity.name == item {
            rule(entity)
                .into_iter()
                .for_each(|expr| references(expr, &mut names));
        }
    }
    for constraint in schema
        .subtype_constraints
        .iter()
        .filter(|it| it.entity == item)
    {
        constraint
            .expr
            .iter()
            .for_each(|expr| references(expr, &mut names));
    }
    let below = schema
        .entities
        .iter()
        .filter(|it| above(it).any(|name| name == item));
    let further: Vec<&str> = below
        .map(|it| it.name.as_str())
        .filter(|it| !names.contains(it))
        .collect();
    names.extend(further);
    names.into_iter().map(|name| (number, name)).collect()
}
