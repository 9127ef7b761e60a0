//! Which records may share a frame header.
//!
//! Safe Rust over the proved library: `questions` has every public question on plain slices; the types here spare the caller
//! buffers and workspace. `include/dinkolafe.h` says what each question answers and when it refuses.

pub mod questions;

/// Why there is no answer: the number of the refusal and its place.
#[derive(Clone, Copy, Debug, PartialEq, Eq)]
pub struct Refusal {
    pub number: u8,
    pub place: u64,
}

impl std::fmt::Display for Refusal {
    fn fmt(&self, f: &mut std::fmt::Formatter<'_>) -> std::fmt::Result {
        write!(f, "refused {} {}", self.number, self.place)
    }
}

impl std::error::Error for Refusal {}

pub type Answer<T> = Result<T, Refusal>;

/// The numbers of a row.
pub const ROW: usize = 13;
/// The most parts of a list.
pub const PARTS: usize = 128;
/// The least workspace.
pub const WORKSPACE: usize = 32768;

/// One combination: how many names, the names' numbers rising, zeros.
#[derive(Clone, Copy, Debug, PartialEq, Eq)]
pub struct Part([u16; ROW]);

impl Part {
    /// The part with these names, given in rising order.
    pub fn new(indices: &[u16]) -> Answer<Part> {
        let mut row = [0; ROW];
        questions::new(indices, &mut row).map(|_| Part(row))
    }

    pub fn names(&self) -> &[u16] {
        &self.0[1..=usize::from(self.0[0])]
    }

    pub fn row(&self) -> &[u16; ROW] {
        &self.0
    }
}

/// The kind of a step of a path, by its place in the Rust's ScopeType.
#[derive(Clone, Copy, Debug, PartialEq, Eq)]
pub enum Kind {
    Entity,
    Alias,
    Function,
    Procedure,
    Query,
    Repeat,
    Rule,
    Schema,
    SubType,
    Type,
}

/// The query of a path or a scope: a field a step, with its kind and name. A name of over 65,535 bytes has no field.
pub fn path(steps: &[(Kind, &str)]) -> Vec<u8> {
    let mut query = Vec::new();
    for (kind, name) in steps {
        let length = u16::try_from(name.len()).expect("a name's length has two bytes");
        query.push(0x60 + *kind as u8);
        query.extend(length.to_be_bytes());
        query.extend(name.as_bytes());
    }
    query
}

/// The memory that questions about supertypes and types work in.
pub struct Workspace(Vec<u16>);

impl Workspace {
    pub fn new() -> Workspace {
        Workspace(vec![0; WORKSPACE])
    }
}

impl Default for Workspace {
    fn default() -> Workspace {
        Workspace::new()
    }
}

/// What a path leads to.
#[derive(Clone, Copy, Debug, PartialEq, Eq)]
pub enum TypeRef {
    Entity { is_supertype: bool },
    Named { is_simple: bool, is_enumerate: bool },
}

/// EXPRESS schemas as bytes: any bytes may be asked about.
#[derive(Clone, Copy, Debug)]
pub struct Sheet<'a>(pub &'a [u8]);

impl<'a> Sheet<'a> {
    /// Accepted, or the first fault.
    pub fn verdict(self) -> Answer<()> {
        questions::verdict(self.0).map(|_| ())
    }

    /// The number of the first declaration with the path.
    pub fn get(self, path: &[u8]) -> Answer<u16> {
        questions::get(self.0, path).map(index)
    }

    /// The name of the schema that declares it, and its own.
    pub fn names(self, declaration: u16) -> Answer<(&'a [u8], &'a [u8])> {
        let schema = questions::schema_name(self.0, declaration)?;
        Ok((schema, questions::item_name(self.0, declaration)?))
    }

    pub fn is_supertype(self, path: &[u8], workspace: &mut Workspace) -> Answer<bool> {
        questions::is_supertype(self.0, path, &mut workspace.0).map(|yes| yes == 1)
    }

    /// The combinations that the supertype allows, in the order of their numbers.
    pub fn list(self, path: &[u8], workspace: &mut Workspace) -> Answer<Vec<Part>> {
        let mut out = [0; ROW * PARTS];
        let count = questions::list(self.0, path, &mut workspace.0, &mut out)?;
        let rows = out.chunks_exact(ROW).take(count as usize);
        Ok(rows
            .map(|row| Part(row.try_into().expect("a row's length")))
            .collect())
    }

    /// The combination's number in the supertype's list.
    pub fn number_of(self, path: &[u8], part: &Part, workspace: &mut Workspace) -> Answer<usize> {
        questions::number_of(self.0, path, part.row(), &mut workspace.0)
            .map(|number| number as usize)
    }

    /// The combination with a number in the supertype's list.
    pub fn part_at(self, path: &[u8], number: usize, workspace: &mut Workspace) -> Answer<Part> {
        let mut row = [0; ROW];
        questions::row_at(self.0, path, number, &mut workspace.0, &mut row).map(|_| Part(row))
    }

    /// The declaration's number of a supertype, from 0 in order of first entry.
    pub fn supertype_at(self, number: usize, workspace: &mut Workspace) -> Answer<u16> {
        questions::supertype_at(self.0, number, &mut workspace.0).map(index)
    }

    pub fn from_path(self, path: &[u8], workspace: &mut Workspace) -> Answer<TypeRef> {
        let value = questions::from_path(self.0, path, &mut workspace.0)?;
        Ok(match value {
            0 | 1 => TypeRef::Entity {
                is_supertype: value == 1,
            },
            _ => TypeRef::Named {
                is_simple: value & 2 != 0,
                is_enumerate: value & 1 != 0,
            },
        })
    }
}

/// A declaration's number: there are at most 256.
fn index(value: u64) -> u16 {
    value as u16
}
