//! Fields: one tag byte, two length bytes, the value. Any fault is `Malformed`.

use crate::answer::Stop;
use std::iter::Peekable;
use std::vec::IntoIter;

pub struct Field<'a> {
    pub tag: u8,
    pub value: &'a [u8],
}

/// The fields of one value, taken from the front
pub struct Fields<'a>(Peekable<IntoIter<Field<'a>>>);

impl<'a> Fields<'a> {
    pub fn cut(mut bytes: &'a [u8]) -> Result<Self, Stop> {
        let mut fields = Vec::new();
        while !bytes.is_empty() {
            let (header, rest) = split(bytes, 3)?;
            let length = usize::from(header[1]) << 8 | usize::from(header[2]);
            let (value, rest) = split(rest, length)?;
            fields.push(Field {
                tag: header[0],
                value,
            });
            bytes = rest;
        }
        Ok(Fields(fields.into_iter().peekable()))
    }

    /// The next field, if its tag is one of these
    pub fn take(&mut self, tags: &[u8]) -> Option<Field<'a>> {
        self.0.next_if(|field| tags.contains(&field.tag))
    }

    pub fn need(&mut self, tags: &[u8]) -> Result<Field<'a>, Stop> {
        self.take(tags).ok_or(Stop::Malformed)
    }

    pub fn end(mut self) -> Result<(), Stop> {
        match self.0.next() {
            None => Ok(()),
            Some(_) => Err(Stop::Malformed),
        }
    }
}

fn split(bytes: &[u8], at: usize) -> Result<(&[u8], &[u8]), Stop> {
    if bytes.len() < at {
        return Err(Stop::Malformed);
    }
    Ok(bytes.split_at(at))
}

pub fn name(value: &[u8]) -> Result<String, Stop> {
    let letters = value.first().is_some_and(u8::is_ascii_alphabetic);
    let rest = value
        .iter()
        .all(|b| b.is_ascii_alphanumeric() || *b == b'_');
    if !letters || !rest || value.len() > 32 {
        return Err(Stop::Malformed);
    }
    Ok(String::from_utf8(value.to_vec()).expect("ASCII"))
}
