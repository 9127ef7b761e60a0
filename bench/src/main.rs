//! Times the port beside the original Rust and writes docs/BENCH.md to standard output.
//! `bench listing` is the Rust's listing program: a sheet on standard input, its text on standard output.
//! `bench ask QUESTION TIMES` asks the port one question so many times, for a profiler.

#[allow(dead_code)] // the shim answers more than is asked here
#[path = "../../compare/rust/src/answer.rs"]
mod answer;
#[path = "../../compare/rust/src/ast.rs"]
mod ast;
#[path = "../../compare/rust/src/fields.rs"]
mod fields;
#[path = "../../compare/rust/src/ir.rs"]
mod ir;
#[allow(dead_code)]
#[path = "../../compare/rust/src/query.rs"]
mod query;
#[path = "../../compare/rust/src/sheet.rs"]
mod sheet;
#[allow(dead_code)]
#[path = "../../compare/rust/src/words.rs"]
mod words;

mod clock;
mod comparisons;
mod original;
mod others;
mod port;
mod process;
mod questions;
mod report;
mod sheets;
mod spent;
mod stack;

use std::io::{self, Read, Write};

fn main() -> io::Result<()> {
    let words: Vec<String> = std::env::args().skip(1).collect();
    let words: Vec<&str> = words.iter().map(String::as_str).collect();
    match words[..] {
        [] => io::stdout().write_all(report::page().as_bytes()),
        ["listing"] => {
            let mut sheet = Vec::new();
            io::stdin().read_to_end(&mut sheet)?;
            io::stdout().write_all(original::listing(&sheet).as_bytes())
        }
        ["ask", question, times] => {
            questions::ask(question, times.parse().expect("a number"));
            Ok(())
        }
        _ => panic!("no such question"),
    }
}
