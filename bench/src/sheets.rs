//! The sheets that are measured, and the queries into them.

use std::iter::repeat;

/// A name of 32 bytes, the longest
const LONG: usize = 32;

fn field(tag: u8, value: Vec<u8>) -> Vec<u8> {
    let length = u16::try_from(value.len()).expect("a value of at most 65,535 bytes");
    let mut field = vec![tag];
    field.extend(length.to_be_bytes());
    field.extend(value);
    field
}

fn name(text: &str) -> Vec<u8> {
    field(0x10, text.as_bytes().to_vec())
}

fn named(tag: u8, text: &str, inside: Vec<Vec<u8>>) -> Vec<u8> {
    field(tag, [name(text), inside.concat()].concat())
}

fn schema(text: &str, inside: Vec<Vec<u8>>) -> Vec<u8> {
    named(0x01, text, inside)
}

fn entity(text: &str, marks: Vec<Vec<u8>>) -> Vec<u8> {
    named(0x30, text, marks)
}

fn alias(text: &str, target: &str) -> Vec<u8> {
    named(0x20, text, vec![field(0x23, target.as_bytes().to_vec())])
}

fn enumeration(text: &str) -> Vec<u8> {
    named(0x20, text, vec![field(0x22, Vec::new())])
}

fn constraint(text: &str, expression: Vec<u8>) -> Vec<u8> {
    named(0x40, text, vec![expression])
}

fn rule(expression: Vec<u8>) -> Vec<u8> {
    field(0x31, expression)
}

fn subtype_of(supertypes: &[String]) -> Vec<u8> {
    let names: Vec<Vec<u8>> = supertypes.iter().map(|text| name(text)).collect();
    field(0x34, names.concat())
}

fn reference(text: &str) -> Vec<u8> {
    field(0x50, text.as_bytes().to_vec())
}

fn andor(terms: Vec<Vec<u8>>) -> Vec<u8> {
    field(0x51, terms.concat())
}

fn and(terms: Vec<Vec<u8>>) -> Vec<u8> {
    field(0x52, terms.concat())
}

fn oneof(terms: Vec<Vec<u8>>) -> Vec<u8> {
    field(0x53, terms.concat())
}

/// A scope or a path: `(tag, name)` for each step
pub fn query(steps: &[(u8, &str)]) -> Vec<u8> {
    let steps = steps
        .iter()
        .map(|(tag, text)| field(*tag, text.as_bytes().to_vec()));
    steps.collect::<Vec<_>>().concat()
}

/// The path of an entity
pub fn entity_path(schema: &str, entity: &str) -> Vec<u8> {
    query(&[(0x67, schema), (0x60, entity)])
}

/// A name to be resolved in a schema
pub fn name_in(schema: &str, name: &str) -> Vec<u8> {
    query(&[(0x67, schema), (0x10, name)])
}

fn numbered(letter: char, number: usize) -> String {
    format!("{}{}", letter, number)
}

/// The same, made as long as a name can be
pub fn long(letter: char, number: usize) -> String {
    let short = numbered(letter, number);
    let pad = LONG - short.len();
    short + &"_".repeat(pad)
}

/// A list of parts of one name, as rows
pub fn singles(indices: std::ops::Range<u16>) -> Vec<u16> {
    let row = |index| [[1, index].as_slice(), &[0; 11]].concat();
    indices.flat_map(row).collect()
}

fn references(letter: char, numbers: impl Iterator<Item = usize>) -> Vec<Vec<u8>> {
    numbers
        .map(|number| reference(&numbered(letter, number)))
        .collect()
}

/// Schema `s`: entities `e0`, `e1` and so on, and last `x` with a rule
fn of_x(entities: usize, expression: Vec<u8>) -> Vec<u8> {
    let mut inside: Vec<Vec<u8>> = (0..entities)
        .map(|number| entity(&numbered('e', number), Vec::new()))
        .collect();
    inside.push(entity("x", vec![rule(expression)]));
    schema("s", inside)
}

pub fn andor_of_7() -> Vec<u8> {
    of_x(7, andor(references('e', 0..7)))
}

pub fn andor_of_12_equal() -> Vec<u8> {
    of_x(1, andor(references('e', repeat(0).take(12))))
}

pub fn and_of_two_lists_of_11() -> Vec<u8> {
    let lists = vec![
        oneof(references('e', 0..11)),
        oneof(references('e', 11..22)),
    ];
    of_x(22, and(lists))
}

pub fn and_of_seven_pairs() -> Vec<u8> {
    let pairs = (0..7).map(|k| oneof(references('e', 2 * k..2 * k + 2)));
    of_x(14, and(pairs.collect()))
}

/// AND over ONEOF over ANDOR over AND, and AND over ANDOR over ONEOF over AND
pub fn nest_of_depth_5() -> Vec<u8> {
    let refs = |numbers| references('e', numbers);
    let inner = andor([vec![and(refs(0..2))], refs(2..4)].concat());
    let left = oneof([vec![inner], refs(4..5)].concat());
    let inner = oneof([vec![and(refs(5..7))], refs(7..9)].concat());
    let right = andor([vec![inner], refs(9..11)].concat());
    of_x(11, and(vec![left, right]))
}

/// How many fields of each kind a schema has; its entities are supertypes of each other.
pub struct Shape {
    pub schemas: usize,
    pub types: usize,
    pub entities: usize,
    pub supertypes: usize,
    pub constraints: usize,
}

/// A sheet of names of 32 bytes: types named after the next one, entities, constraints of one name
pub fn of_shape(shape: &Shape) -> Vec<u8> {
    let schemas = (0..shape.schemas).map(|number| schema(&long('s', number), inside(shape)));
    schemas.collect::<Vec<_>>().concat()
}

fn inside(shape: &Shape) -> Vec<Vec<u8>> {
    let other = |number| long('e', number % shape.entities);
    let mut fields = Vec::new();
    for number in 0..shape.types {
        fields.push(alias(&long('t', number), &long('t', number + 1)));
    }
    for number in 0..shape.entities {
        let supertypes: Vec<String> = (1..=shape.supertypes).map(|k| other(number + k)).collect();
        fields.push(entity(&long('e', number), vec![subtype_of(&supertypes)]));
    }
    for number in 0..shape.constraints {
        fields.push(constraint(&other(number), reference(&other(number + 1))));
    }
    fields
}

/// 8 schemas, 256 declarations, 64 constraints, 512 expressions and names in SUBTYPE OF; in each schema depth 5, an ANDOR of 12 factors, a part of 12 names and a list of 128 parts
pub fn at_every_limit() -> Vec<u8> {
    let schemas = (0..8).map(|number| schema(&long('s', number), full_schema()));
    schemas.collect::<Vec<_>>().concat()
}

fn full_schema() -> Vec<Vec<u8>> {
    let e = |number| reference(&long('e', number));
    let refs = |numbers: std::ops::Range<usize>| numbers.map(e).collect::<Vec<_>>();
    let mut fields = Vec::new();
    for number in 0..11 {
        fields.push(alias(&long('t', number), &long('t', number + 1)));
    }
    fields.push(enumeration(&long('t', 11)));
    for number in 0..18 {
        fields.push(entity(&long('e', number), Vec::new()));
    }
    for number in 18..20 {
        let above = subtype_of(&[long('e', 17)]);
        fields.push(entity(&long('e', number), vec![above]));
    }
    let pairs = (0..7).map(|k| oneof(refs(2 * k..2 * k + 2))).collect();
    let inner = and(vec![andor(vec![e(0)]), e(1)]);
    let expressions = [
        andor(refs(0..7)),
        and(pairs),
        andor(repeat(0).take(12).map(e).collect()),
        and(refs(0..12)),
        andor(vec![oneof(vec![inner])]),
    ];
    for (number, expression) in expressions.into_iter().enumerate() {
        fields.push(constraint(&long('e', 12 + number), expression));
    }
    for number in 5..8 {
        fields.push(constraint(&long('e', 12 + number), Vec::new()));
    }
    fields
}
