//! The words of the line protocol: hex digits, `-` where there are none.

use crate::answer::Stop;

pub fn bytes(word: &str) -> Vec<u8> {
    digits(word, 2).map(|byte| byte as u8).collect()
}

pub fn numbers(word: &str) -> Vec<usize> {
    digits(word, 4).collect()
}

fn digits(word: &str, width: usize) -> impl Iterator<Item = usize> + '_ {
    let word = if word == "-" { "" } else { word };
    (0..word.len())
        .step_by(width)
        .map(move |at| usize::from_str_radix(&word[at..at + width], 16).expect("hex digits"))
}

pub fn decimal(word: &str) -> usize {
    word.parse().expect("a decimal number")
}

pub fn hex_bytes(bytes: &[u8]) -> String {
    or_dash(bytes.iter().map(|byte| format!("{:02x}", byte)).collect())
}

pub fn hex_numbers(numbers: &[usize]) -> String {
    or_dash(
        numbers
            .iter()
            .map(|number| format!("{:04x}", number))
            .collect(),
    )
}

fn or_dash(digits: String) -> String {
    if digits.is_empty() {
        "-".to_string()
    } else {
        digits
    }
}

/// The Rust borrows no workspace; too short a one is not its business.
pub fn workspace(word: &str) -> Result<(), Stop> {
    const LEAST: usize = 32_768;
    if decimal(word) < LEAST {
        return Err(Stop::Short);
    }
    Ok(())
}
