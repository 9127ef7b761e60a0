//! The same questions put to the original Rust, which compare/ builds unchanged, and to the library.
//!
//! It needs what compare/README.md names: Python and Debian's librust-itertools-dev and librust-thiserror-dev.
mod protocol;

use std::fs;
use std::path::{Path, PathBuf};
use std::process::{Command, Stdio};

const GROUPS: [(&str, &str); 6] = [
    ("lists", "4000"),
    ("rows", "4000"),
    ("verdicts", "6000"),
    ("names", "6000"),
    ("supertypes", "6000"),
    ("types", "4000"),
];
/// Not the seed of the fixed lists.
const SEED: &str = "13";

/// What a program of compare/ prints.
fn printed(command: &mut Command) -> String {
    let output = command.stderr(Stdio::inherit()).output().unwrap();
    assert!(
        output.status.success(),
        "{command:?}: {}",
        String::from_utf8_lossy(&output.stdout)
    );
    String::from_utf8(output.stdout).unwrap()
}

fn answers(questions: &str) -> String {
    questions
        .lines()
        .map(|question| protocol::answer(question).unwrap() + "\n")
        .collect()
}

/// A group's questions and both sides' answers, where `agree` looks for them.
fn ask(compare: &Path, original: &str, folder: &Path, group: &str, count: &str) {
    let questions = printed(Command::new(compare.join("generate")).args([group, SEED, count]));
    let asked = folder.join(format!("{group}.questions"));
    fs::write(&asked, &questions).unwrap();
    let rust = printed(Command::new(original).stdin(fs::File::open(&asked).unwrap()));
    fs::write(folder.join(format!("{group}.rust")), rust).unwrap();
    fs::write(folder.join(format!("{group}.checker")), answers(&questions)).unwrap();
}

#[test]
fn original_rust() {
    let compare = Path::new(env!("CARGO_MANIFEST_DIR")).join("../compare");
    let folder = PathBuf::from(env!("CARGO_TARGET_TMPDIR")).join("original");
    fs::create_dir_all(&folder).unwrap();
    let original = printed(&mut Command::new(compare.join("build")));
    for (group, count) in GROUPS {
        ask(&compare, original.trim(), &folder, group, count);
    }
    let agree = printed(
        Command::new(compare.join("agree"))
            .arg(&folder)
            .args(GROUPS.map(|group| group.0)),
    );
    println!("{agree}");
    assert!(agree.trim_end().ends_with(", 0 differ"), "{agree}");
}
