//! Programs that read a sheet from standard input and print its listing: how long they take, less what starting takes.

use crate::spent;
use std::io::Write;
use std::path::Path;
use std::process::{Command, Stdio};

const ROUNDS: usize = 21;

/// A program's output for an input
pub fn output(program: &Path, words: &[&str], input: &[u8]) -> Vec<u8> {
    let mut child = Command::new(program)
        .args(words)
        .stdin(Stdio::piped())
        .stdout(Stdio::piped())
        .spawn()
        .expect("a program that starts");
    let mut stdin = child.stdin.take().expect("a pipe");
    stdin.write_all(input).expect("a program that reads");
    drop(stdin);
    child
        .wait_with_output()
        .expect("a program that ends")
        .stdout
}

/// The least time for an input, less the least for an empty one, in seconds
pub fn least(program: &Path, words: &[&str], input: &[u8]) -> f64 {
    let took = |input: &[u8]| {
        let before = spent::by_programs();
        output(program, words, input);
        (spent::by_programs() - before).as_secs_f64()
    };
    let rounds = (0..ROUNDS).map(|_| [took(input), took(&[])]);
    let least = rounds.fold([f64::INFINITY; 2], |[a, b], [x, y]| [a.min(x), b.min(y)]);
    least[0] - least[1]
}
