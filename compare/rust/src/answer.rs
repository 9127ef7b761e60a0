//! What a line of answer can be where the Rust gives no list, name or flag.

use crate::ir::SemanticError;
use crate::words::hex_bytes;

/// The end of a question without the asked value; `line` tells it.
pub enum Stop {
    /// The sheet, query or row is none that the Rust could be asked about.
    Malformed,
    /// The result, or the work, has no room in what was lent.
    Short,
    /// The Rust would take too long.
    Costly,
    /// The alias walk comes back to where it was.
    Endless,
    /// The Rust has no such supertype, number or set.
    Absent(u8),
    Error(SemanticError),
    /// The protocol has no such question.
    Unknown,
}

pub type Answer = Result<String, Stop>;

impl From<SemanticError> for Stop {
    fn from(error: SemanticError) -> Self {
        Stop::Error(error)
    }
}

impl Stop {
    pub fn line(&self) -> String {
        match self {
            Stop::Malformed => "silent malformed".to_string(),
            Stop::Short => "silent short".to_string(),
            Stop::Costly => "silent costly".to_string(),
            Stop::Endless => "endless".to_string(),
            Stop::Unknown => "no such question".to_string(),
            Stop::Absent(number) => format!("refused {} 0", number),
            Stop::Error(error) => format!("error {} {}", refusal(error), subject(error)),
        }
    }
}

/// Document 01's number of an error of the Rust
pub fn refusal(error: &SemanticError) -> u8 {
    match error {
        SemanticError::TypeNotFound { .. } => 6,
        SemanticError::InvalidPath(_) => 7,
        SemanticError::DuplicatedDeclaration(_) => 8,
    }
}

/// The name that an error speaks of, as a word
fn subject(error: &SemanticError) -> String {
    let name = match error {
        SemanticError::TypeNotFound { name, .. } => name,
        SemanticError::InvalidPath(path) | SemanticError::DuplicatedDeclaration(path) => &path.name,
    };
    hex_bytes(name.as_bytes())
}
