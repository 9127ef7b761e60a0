//! stamp SHEET SUPERTYPE NAME..: the number of a set of names, and the names of that number.
//!
//! A name is written SCHEMA.ENTITY, as in `stamp examples/cam.sheet cam.frame cam.exposed`.
use dinkolafe::{path, Answer, Kind, Part, Sheet, Workspace};

/// The query of an entity's path.
fn query(name: &str) -> Vec<u8> {
    let (schema, entity) = name.split_once('.').expect("a name is SCHEMA.ENTITY");
    path(&[(Kind::Schema, schema), (Kind::Entity, entity)])
}

/// The part that has the names.
fn part_of(sheet: Sheet, names: &[String]) -> Answer<Part> {
    let mut indices = names
        .iter()
        .map(|name| sheet.get(&query(name)))
        .collect::<Answer<Vec<u16>>>()?;
    indices.sort_unstable();
    Part::new(&indices)
}

fn spelt(sheet: Sheet, index: u16) -> Answer<String> {
    let (schema, item) = sheet.names(index)?;
    Ok(format!(
        "{}.{}",
        String::from_utf8_lossy(schema),
        String::from_utf8_lossy(item)
    ))
}

fn stamp(sheet: Sheet, supertype: &str, names: &[String]) -> Answer<()> {
    let mut workspace = Workspace::new();
    let number = sheet.number_of(&query(supertype), &part_of(sheet, names)?, &mut workspace)?;
    println!("number {number}");
    let back = sheet.part_at(&query(supertype), number, &mut workspace)?;
    let names = back
        .names()
        .iter()
        .map(|index| spelt(sheet, *index))
        .collect::<Answer<Vec<String>>>()?;
    println!("names {}", names.join(" "));
    Ok(())
}

fn main() {
    let words: Vec<String> = std::env::args().collect();
    if words.len() < 3 {
        eprintln!("usage: stamp SHEET SUPERTYPE NAME..");
        std::process::exit(2);
    }
    let bytes = std::fs::read(&words[1]).expect("the sheet can be read");
    if let Err(refusal) = stamp(Sheet(&bytes), &words[2], &words[3..]) {
        println!("{refusal}");
        std::process::exit(1);
    }
}
