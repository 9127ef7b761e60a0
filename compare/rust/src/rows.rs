//! Questions on rows: a part is 13 numbers (count, rising indices, zeros), a list is rows.

use crate::answer::{Answer, Stop};
use crate::effort;
use crate::ir::{Instantiables, PartialComplexEntity};
use crate::words::{decimal, hex_numbers, numbers};

const ROW: usize = 13;
const NAMES: usize = 12;
const PARTS: usize = 128;
const INDICES: usize = 256;

fn read_row(row: &[usize]) -> Result<PartialComplexEntity, Stop> {
    let count = *row.first().ok_or(Stop::Malformed)?;
    if row.len() != ROW || count > NAMES {
        return Err(Stop::Malformed);
    }
    let (indices, padding) = row[1..].split_at(count);
    let rising = indices.windows(2).all(|pair| pair[0] < pair[1]);
    let small = indices.iter().all(|index| *index < INDICES);
    if !rising || !small || padding.iter().any(|number| *number != 0) {
        return Err(Stop::Malformed);
    }
    Ok(PartialComplexEntity::new(indices))
}

pub fn part(word: &str) -> Result<PartialComplexEntity, Stop> {
    read_row(&numbers(word))
}

fn read_list(rows: &[usize]) -> Result<Instantiables, Stop> {
    let parts = rows
        .chunks(ROW)
        .map(read_row)
        .collect::<Result<Vec<_>, Stop>>()?;
    if parts.len() > PARTS {
        return Err(Stop::Malformed);
    }
    Ok(Instantiables::new(&parts))
}

fn list(word: &str) -> Result<Instantiables, Stop> {
    read_list(&numbers(word))
}

/// Lists that stand one after another, with the number of rows of each
fn lists(counts: &str, rows: &str) -> Result<Vec<Instantiables>, Stop> {
    let rows = numbers(rows);
    let mut rest = rows.as_slice();
    let mut lists = Vec::new();
    for count in numbers(counts) {
        if rest.len() < count * ROW {
            return Err(Stop::Malformed);
        }
        let (here, after) = rest.split_at(count * ROW);
        lists.push(read_list(here)?);
        rest = after;
    }
    if !rest.is_empty() {
        return Err(Stop::Malformed);
    }
    Ok(lists)
}

fn row(part: &PartialComplexEntity) -> Vec<usize> {
    let mut row = vec![part.indices.len()];
    row.extend(&part.indices);
    row.resize(ROW, 0);
    row
}

/// `beyond` where the Rust answers more than document 01's rows and lists can hold
pub fn list_answer(list: &Instantiables, room: &str) -> Answer {
    let count = list.parts.len();
    if count > PARTS || list.parts.iter().any(|part| part.indices.len() > NAMES) {
        return Ok("beyond".to_string());
    }
    if decimal(room) < count * ROW {
        return Err(Stop::Short);
    }
    let rows: Vec<usize> = list.parts.iter().flat_map(row).collect();
    Ok(format!("ok {} out {}", count, hex_numbers(&rows)))
}

pub fn part_answer(part: PartialComplexEntity, room: &str) -> Answer {
    list_answer(&Instantiables::new(&[part]), room)
}

/// The Rust keeps a falling index where it is; that is no part.
pub fn new(word: &str, room: &str) -> Answer {
    let indices = numbers(word);
    let falls = indices.windows(2).any(|pair| pair[0] > pair[1]);
    if falls || indices.iter().any(|index| *index >= INDICES) {
        return Err(Stop::Malformed);
    }
    part_answer(PartialComplexEntity::new(&indices), room)
}

pub fn single(word: &str, room: &str) -> Answer {
    let index = decimal(word);
    if index >= INDICES {
        return Err(Stop::Malformed);
    }
    list_answer(&Instantiables::single(index), room)
}

pub fn join(left: &str, right: &str, room: &str) -> Answer {
    part_answer(part(left)? & part(right)?, room)
}

pub fn compare(left: &str, right: &str) -> Answer {
    Ok(format!("ok {}", part(left)?.cmp(&part(right)?) as i8))
}

pub fn operator(question: &str, left: &str, right: &str, room: &str) -> Answer {
    let result = match question {
        "add" => list(left)? + list(right)?,
        "add_part" => list(left)? + part(right)?,
        "part_add" => part(left)? + list(right)?,
        "bitand" => list(left)? & list(right)?,
        "bitand_part" => list(left)? & part(right)?,
        "part_bitand" => part(left)? & list(right)?,
        "sub" => list(left)? - list(right)?,
        "sub_part" => list(left)? - part(right)?,
        "div" => list(left)? / list(right)?,
        "div_part" => list(left)? / part(right)?,
        _ => return Err(Stop::Unknown),
    };
    list_answer(&result, room)
}

pub fn several(question: &str, counts: &str, rows: &str, room: &str) -> Answer {
    let lists = lists(counts, rows)?;
    let sizes: Vec<u64> = lists.iter().map(|list| list.parts.len() as u64).collect();
    let result = match question {
        "oneof" => Instantiables::oneof(lists),
        "and" => {
            effort::bearable(effort::of_and(&sizes))?;
            Instantiables::and(lists)
        }
        _ => {
            effort::bearable(effort::of_andor(&sizes))?;
            Instantiables::andor(lists)
        }
    };
    list_answer(&result, room)
}
