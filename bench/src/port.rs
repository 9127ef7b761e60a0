//! The port's side: the timed questions of the crate `dinkolafe` (rust/), and the memory that is lent to them.

use dinkolafe::{questions, PARTS, ROW, WORKSPACE};

/// A workspace of the least length, and a buffer for the longest list
pub struct Memory {
    workspace: Vec<u16>,
    out: Vec<u16>,
}

impl Memory {
    pub fn new() -> Self {
        Memory {
            workspace: vec![0; WORKSPACE],
            out: vec![0; ROW * PARTS],
        }
    }

    /// The supertype's rows
    pub fn list(&mut self, sheet: &[u8], query: &[u8]) -> &[u16] {
        let listed = questions::list(sheet, query, &mut self.workspace, &mut self.out);
        let count = listed.expect("a supertype");
        &self.out[..ROW * count as usize]
    }
}

pub fn verdict(sheet: &[u8]) {
    questions::verdict(sheet).expect("an accepted sheet");
}

/// The number of what the name means
pub fn resolve(sheet: &[u8], query: &[u8]) -> usize {
    questions::resolve(sheet, query).expect("a declared name") as usize
}
