//! The questions of compare/README.md's line protocol, answered through the crate.
use dinkolafe::{questions, Answer};

/// The answer to a question line; None where it is no question of this library.
pub fn answer(question: &str) -> Option<String> {
    let words: Vec<&str> = question.split(' ').collect();
    let (name, words) = words.split_first()?;
    if let Some(ask) = of_two_operands(name) {
        let mut out = lent(words[2]);
        return Some(with_buffer(
            ask(&numbers(words[0]), &numbers(words[1]), &mut out),
            &out,
        ));
    }
    on_parts(name, words)
        .or_else(|| on_sheets(name, words))
        .or_else(|| on_supertypes(name, words))
}

type OfTwo = fn(&[u16], &[u16], &mut [u16]) -> Answer<u64>;

/// Two words of numbers and a result buffer.
fn of_two_operands(name: &str) -> Option<OfTwo> {
    Some(match name {
        "join" => questions::join,
        "add" => questions::add,
        "add_part" => questions::add_part,
        "part_add" => questions::part_add,
        "bitand" => questions::bitand,
        "bitand_part" => questions::bitand_part,
        "part_bitand" => questions::part_bitand,
        "sub" => questions::sub,
        "sub_part" => questions::sub_part,
        "div" => questions::div,
        "div_part" => questions::div_part,
        "oneof" => questions::oneof,
        "and" => questions::and,
        "andor" => questions::andor,
        _ => return None,
    })
}

fn on_parts(name: &str, words: &[&str]) -> Option<String> {
    Some(match name {
        "new" => {
            let mut out = lent(words[1]);
            with_buffer(questions::new(&numbers(words[0]), &mut out), &out)
        }
        "single" => {
            let mut out = lent(words[1]);
            with_buffer(questions::single(words[0].parse().unwrap(), &mut out), &out)
        }
        "compare" => told(questions::compare(&numbers(words[0]), &numbers(words[1])).map(sign)),
        _ => return None,
    })
}

fn on_sheets(name: &str, words: &[&str]) -> Option<String> {
    let index = || words[1].parse().unwrap();
    Some(match name {
        "verdict" => told(questions::verdict(&bytes(words[0])).map(nothing)),
        "resolve" => told(questions::resolve(&bytes(words[0]), &bytes(words[1])).map(number)),
        "get" => told(questions::get(&bytes(words[0]), &bytes(words[1])).map(number)),
        "as_path" => told(questions::as_path(&bytes(words[0]), index()).map(nothing)),
        "schema_name" => part(&bytes(words[0]), index(), questions::schema_name),
        "item_name" => part(&bytes(words[0]), index(), questions::item_name),
        "scope_order" => told(questions::order(&bytes(words[0]), &bytes(words[1])).map(sign)),
        _ => return None,
    })
}

fn on_supertypes(name: &str, words: &[&str]) -> Option<String> {
    let sheet = bytes(words[0]);
    let query = || bytes(words[1]);
    let at = || words[1].parse().unwrap();
    Some(match name {
        "is_supertype" => {
            let mut work = lent(words[2]);
            let answer = questions::is_supertype(&sheet, &query(), &mut work);
            format!("{} {}", told(answer.map(number)), state(&work))
        }
        "supertype" => {
            let mut work = lent(words[2]);
            let answer = questions::supertype_at(&sheet, at(), &mut work);
            format!("{} {}", told(answer.map(number)), state(&work))
        }
        "list" => {
            let (mut work, mut out) = (lent(words[2]), lent(words[3]));
            let answer = questions::list(&sheet, &query(), &mut work, &mut out);
            format!("{} {}", with_buffer(answer, &out), state(&work))
        }
        "number_of" => {
            let mut work = lent(words[3]);
            let answer = questions::number_of(&sheet, &query(), &numbers(words[2]), &mut work);
            format!("{} {}", told(answer.map(number)), state(&work))
        }
        "set_at" => {
            let (mut work, mut out) = (lent(words[3]), lent(words[4]));
            let answer = questions::row_at(
                &sheet,
                &query(),
                words[2].parse().unwrap(),
                &mut work,
                &mut out,
            );
            format!("{} {}", with_buffer(answer, &out), state(&work))
        }
        "from_path" => {
            let mut work = lent(words[2]);
            let answer = questions::from_path(&sheet, &query(), &mut work);
            format!("{} {}", told(answer.map(kind)), state(&work))
        }
        _ => return None,
    })
}

// ---- answers as words

fn told(answer: Answer<String>) -> String {
    match answer {
        Ok(value) => format!("ok{value}"),
        Err(refusal) => refusal.to_string(),
    }
}

fn nothing(_: u64) -> String {
    String::new()
}

fn number(value: u64) -> String {
    format!(" {value}")
}

fn sign(value: u64) -> String {
    [" -1", " 0", " 1", " none"][value as usize].to_string()
}

fn kind(value: u64) -> String {
    match value {
        0 | 1 => format!(" entity {value}"),
        _ => format!(" named {} {}", value >> 1 & 1, value & 1),
    }
}

/// A name's bytes; refused, the part is empty.
fn part(sheet: &[u8], index: u16, ask: fn(&[u8], u16) -> Answer<&[u8]>) -> String {
    let name = ask(sheet, index).unwrap_or_default();
    let digits: String = name.iter().map(|byte| format!("{byte:02x}")).collect();
    format!("ok {}", or_dash(digits))
}

/// The answer, and the buffer up to the last number that is not as it was lent.
fn with_buffer(answer: Answer<u64>, out: &[u16]) -> String {
    let changed = (0..out.len())
        .rev()
        .find(|i| out[*i] != pattern(*i))
        .map_or(0, |last| last + 1);
    let digits: String = out[..changed]
        .iter()
        .map(|number| format!("{number:04x}"))
        .collect();
    format!("{} out {}", told(answer.map(number)), or_dash(digits))
}

fn state(work: &[u16]) -> &'static str {
    if work
        .iter()
        .enumerate()
        .all(|(i, number)| *number == pattern(i))
    {
        return "ws left";
    }
    if work.iter().all(|number| *number == 0) {
        return "ws zero";
    }
    "ws other"
}

fn or_dash(digits: String) -> String {
    if digits.is_empty() {
        return "-".to_string();
    }
    digits
}

// ---- words as values

/// What memory is lent full of.
fn pattern(i: usize) -> u16 {
    40000 + (i % 20000) as u16
}

fn lent(length: &str) -> Vec<u16> {
    (0..length.parse().unwrap()).map(pattern).collect()
}

fn bytes(word: &str) -> Vec<u8> {
    digits(word, 2)
        .into_iter()
        .map(|number| number as u8)
        .collect()
}

fn numbers(word: &str) -> Vec<u16> {
    digits(word, 4)
}

fn digits(word: &str, each: usize) -> Vec<u16> {
    if word == "-" {
        return Vec::new();
    }
    (0..word.len())
        .step_by(each)
        .map(|at| u16::from_str_radix(&word[at..at + each], 16).unwrap())
        .collect()
}
