//! What is asked: each question of the Rust and of the port, whose answers must be equal before they are timed.

use crate::clock::{measure, Side, Times};
use crate::ir::Namespace;
use crate::sheets::{self, Shape};
use crate::{original, port};
use std::hint::black_box;

/// A supertype in a sheet
pub struct Supertype {
    pub name: &'static str,
    pub what: &'static str,
    pub sheet: Vec<u8>,
    pub query: Vec<u8>,
    /// How many times faster than the Rust the port is to be
    pub target: f64,
}

fn of_x(name: &'static str, what: &'static str, sheet: Vec<u8>, target: f64) -> Supertype {
    let query = sheets::entity_path("s", "x");
    Supertype {
        name,
        what,
        sheet,
        query,
        target,
    }
}

pub fn supertypes() -> Vec<Supertype> {
    let full = Supertype {
        name: "full",
        what: "ANDOR of 2 names, in the sheet at every limit",
        sheet: sheets::at_every_limit(),
        query: sheets::entity_path(&sheets::long('s', 7), &sheets::long('e', 17)),
        target: 1.0,
    };
    vec![
        of_x("andor7", "ANDOR of 7 names", sheets::andor_of_7(), 30.0),
        of_x(
            "equal12",
            "ANDOR of 12 equal names",
            sheets::andor_of_12_equal(),
            200.0,
        ),
        of_x(
            "and11",
            "AND of two lists of 11",
            sheets::and_of_two_lists_of_11(),
            4.0,
        ),
        of_x(
            "pairs",
            "AND of seven ONEOFs of two",
            sheets::and_of_seven_pairs(),
            1.0,
        ),
        of_x("nest", "a nest of depth 5", sheets::nest_of_depth_5(), 1.0),
        full,
    ]
}

/// Sheets of names of 32 bytes, by their kilobytes
pub fn growing() -> Vec<Vec<u8>> {
    let shape = |schemas, types, entities, supertypes, constraints| Shape {
        schemas,
        types,
        entities,
        supertypes,
        constraints,
    };
    [
        shape(1, 6, 1, 12, 1),
        shape(2, 24, 4, 11, 7),
        shape(8, 28, 4, 14, 8),
    ]
    .iter()
    .map(sheets::of_shape)
    .collect()
}

/// The Rust's reading of the sheet into its tree; the port's verdict
pub fn verdict(sheet: &[u8]) -> [Times; 2] {
    timed([
        Box::new(|| {
            black_box(original::read(sheet));
        }),
        Box::new(|| port::verdict(black_box(sheet))),
    ])
}

/// The last entity's name in the last schema
pub fn last_name(sheet: &[u8]) -> Vec<u8> {
    let tree = original::read(sheet);
    let schema = tree.schemas.last().expect("a schema");
    let entity = schema.entities.last().expect("an entity");
    sheets::name_in(&schema.name, &entity.name)
}

/// The Rust with its namespace at hand, from the tree, and from the bytes; the port
pub fn resolve(sheet: &[u8], query: &[u8]) -> [Times; 4] {
    let tree = original::read(sheet);
    let asked = original::reference(query);
    let ns = Namespace::new(&tree);
    assert_eq!(original::resolve(&ns, &asked), port::resolve(sheet, query));
    timed([
        Box::new(|| {
            black_box(original::resolve(&ns, &asked));
        }),
        Box::new(|| {
            black_box(original::resolve(&Namespace::new(&tree), &asked));
        }),
        Box::new(|| {
            let tree = original::read(sheet);
            black_box(original::resolve(&Namespace::new(&tree), &asked));
        }),
        Box::new(|| {
            black_box(port::resolve(sheet, query));
        }),
    ])
}

/// How many parts; then the Rust from the tree and from the bytes, and the port
pub fn list(asked: &Supertype) -> (usize, [Times; 3]) {
    let Supertype { sheet, query, .. } = asked;
    let tree = original::read(sheet);
    let path = original::path(query);
    let mut memory = port::Memory::new();
    let rows = original::rows(&original::list(&tree, &path));
    assert_eq!(rows, memory.list(sheet, query));
    let times = timed([
        Box::new(|| {
            black_box(original::list(&tree, &path));
        }),
        Box::new(|| {
            black_box(original::list(&original::read(sheet), &path));
        }),
        Box::new(|| {
            black_box(memory.list(sheet, query));
        }),
    ]);
    (rows.len() / dinkolafe::ROW, times)
}

fn timed<const SIDES: usize>(sides: [Side; SIDES]) -> [Times; SIDES] {
    let times = measure(sides.into()).try_into();
    times.unwrap_or_else(|_| unreachable!("as many as sides"))
}

/// One question of the port, again and again
pub fn ask(question: &str, times: usize) {
    if question == "verdict" {
        let sheet = growing().pop().expect("the longest");
        return (0..times).for_each(|_| port::verdict(&sheet));
    }
    let known = supertypes().into_iter().find(|it| it.name == question);
    let asked = known.expect("a supertype's name");
    let mut memory = port::Memory::new();
    for _ in 0..times {
        memory.list(&asked.sheet, &asked.query);
    }
}
