//! The port's questions that are not timed, asked once each for the stack that they take.

use crate::questions::Supertype;
use crate::{sheets, stack};
use dinkolafe::{questions as ask, Answer, PARTS, ROW, WORKSPACE};

/// A question, and the bytes of stack that it takes
type Taken = (&'static str, usize);

/// A question of two operands, whose rows go to the third
type Operator = fn(&[u16], &[u16], &mut [u16]) -> Answer<u64>;

fn taken(name: &'static str, question: impl FnOnce() -> Answer<u64> + Send) -> Taken {
    let bytes = stack::peak(|| {
        question().expect("an answer");
    });
    (name, bytes)
}

/// Questions that borrow no workspace, in a sheet
pub fn of_names(sheet: &[u8], path: &[u8], scope: &[u8]) -> Vec<Taken> {
    vec![
        taken("get", || ask::get(sheet, path)),
        taken("as_path", || ask::as_path(sheet, 255)),
        taken("order", || ask::order(scope, scope)),
    ]
}

/// Questions that borrow a workspace, about one supertype
pub fn of_supertypes(asked: &Supertype) -> Vec<Taken> {
    let Supertype { sheet, query, .. } = asked;
    let mut work = vec![0; WORKSPACE];
    vec![
        taken("is_supertype", || {
            ask::is_supertype(sheet, query, &mut work)
        }),
        taken("from_path", || ask::from_path(sheet, query, &mut work)),
        taken("supertype_at", || ask::supertype_at(sheet, 0, &mut work)),
    ]
}

/// The operators, on lists of 11 parts; a join on two parts, and an ANDOR on lists of 4
pub fn of_rows() -> Vec<Taken> {
    let (left, right) = (sheets::singles(0..11), sheets::singles(11..22));
    let both = sheets::singles(0..22);
    let asked: [(_, Operator, &[u16], &[u16]); 8] = [
        ("join", ask::join, &left[..ROW], &right[..ROW]),
        ("add", ask::add, &left, &right),
        ("bitand", ask::bitand, &left, &right),
        ("sub", ask::sub, &left, &right),
        ("div", ask::div, &left, &right),
        ("oneof", ask::oneof, &[11, 11], &both),
        ("and", ask::and, &[11, 11], &both),
        ("andor", ask::andor, &[4, 4], &both[..8 * ROW]),
    ];
    let mut out = vec![0; ROW * PARTS];
    let answered =
        asked.map(|(name, operator, left, right)| taken(name, || operator(left, right, &mut out)));
    answered.to_vec()
}
