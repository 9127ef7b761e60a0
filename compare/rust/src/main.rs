//! Puts the questions of compare/README.md to the original Rust: a line each, answered by a line.

mod answer;
mod ast;
mod effort;
mod expressions;
mod fields;
mod ir;
mod listing;
mod names;
mod query;
mod rows;
mod sheet;
mod supertypes;
mod types;
mod words;

use answer::{Answer, Stop};
use std::io::{self, BufRead, BufWriter, Write};
use std::panic;

fn ask(words: &[&str]) -> Answer {
    match *words {
        ["new", numbers, room] => rows::new(numbers, room),
        ["single", number, room] => rows::single(number, room),
        ["join", left, right, room] => rows::join(left, right, room),
        ["compare", left, right] => rows::compare(left, right),
        [question @ ("oneof" | "and" | "andor"), counts, lists, room] => {
            rows::several(question, counts, lists, room)
        }
        ["verdict", sheet] => names::verdict(sheet),
        ["resolve", sheet, query] => names::resolve(sheet, query),
        ["get", sheet, query] => names::get(sheet, query),
        ["as_path", sheet, index] => names::declared(sheet, index),
        ["schema_name", sheet, index] => names::schema_name(sheet, index),
        ["item_name", sheet, index] => names::item_name(sheet, index),
        ["scope_order", left, right] => names::scope_order(left, right),
        ["is_supertype", sheet, query, ws] => supertypes::is_supertype(sheet, query, ws),
        ["supertype", sheet, number, ws] => supertypes::supertype(sheet, number, ws),
        ["list", sheet, query, ws, room] => supertypes::list(sheet, query, ws, room),
        ["number_of", sheet, query, row, ws] => supertypes::number_of(sheet, query, row, ws),
        ["set_at", sheet, query, number, ws, room] => {
            supertypes::set_at(sheet, query, number, ws, room)
        }
        ["from_path", sheet, query, ws] => types::answer(sheet, query, ws),
        ["listing", sheet] => listing::answer(sheet),
        ["eval", expr, room] => expressions::eval(expr, room),
        [question, left, right, room] => rows::operator(question, left, right, room),
        _ => Err(Stop::Unknown),
    }
}

fn main() -> io::Result<()> {
    panic::set_hook(Box::new(|_| {})); // a panic is an answer here
    let mut out = BufWriter::new(io::stdout().lock());
    for line in io::stdin().lock().lines() {
        let line = line?;
        let words: Vec<&str> = line.split(' ').collect();
        let said = match panic::catch_unwind(|| ask(&words)) {
            Ok(Ok(answer)) => answer,
            Ok(Err(stop)) => stop.line(),
            Err(_) => "panic".to_string(),
        };
        writeln!(out, "{}", said)?;
    }
    out.flush()
}
