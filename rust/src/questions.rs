//! The questions on plain slices, as include/dinkolafe.h has them: what each answers, refuses and leaves is said there.
//!
//! Every function is safe: any content may be handed in, and Rust sees to it that what is written overlaps nothing.

use crate::{Answer, Refusal};

mod c {
    extern "C" {
        pub fn dinkolafe_verdict(sheet: *const u8, sheet_len: usize, value: *mut u64) -> u8;
        pub fn dinkolafe_resolve(
            sheet: *const u8,
            sheet_len: usize,
            query: *const u8,
            query_len: usize,
            value: *mut u64,
        ) -> u8;
        pub fn dinkolafe_get(
            sheet: *const u8,
            sheet_len: usize,
            query: *const u8,
            query_len: usize,
            value: *mut u64,
        ) -> u8;
        pub fn dinkolafe_as_path(
            sheet: *const u8,
            sheet_len: usize,
            index: u16,
            value: *mut u64,
        ) -> u8;
        pub fn dinkolafe_order(
            left: *const u8,
            left_len: usize,
            right: *const u8,
            right_len: usize,
            value: *mut u64,
        ) -> u8;
        pub fn dinkolafe_is_supertype(
            sheet: *const u8,
            sheet_len: usize,
            query: *const u8,
            query_len: usize,
            workspace: *mut u16,
            workspace_len: usize,
            value: *mut u64,
        ) -> u8;
        pub fn dinkolafe_list(
            sheet: *const u8,
            sheet_len: usize,
            query: *const u8,
            query_len: usize,
            workspace: *mut u16,
            workspace_len: usize,
            out: *mut u16,
            out_len: usize,
            value: *mut u64,
        ) -> u8;
        pub fn dinkolafe_number_of(
            sheet: *const u8,
            sheet_len: usize,
            query: *const u8,
            query_len: usize,
            row: *const u16,
            row_len: usize,
            workspace: *mut u16,
            workspace_len: usize,
            value: *mut u64,
        ) -> u8;
        pub fn dinkolafe_row_at(
            sheet: *const u8,
            sheet_len: usize,
            query: *const u8,
            query_len: usize,
            number: usize,
            workspace: *mut u16,
            workspace_len: usize,
            out: *mut u16,
            out_len: usize,
            value: *mut u64,
        ) -> u8;
        pub fn dinkolafe_supertype_at(
            sheet: *const u8,
            sheet_len: usize,
            number: usize,
            workspace: *mut u16,
            workspace_len: usize,
            value: *mut u64,
        ) -> u8;
        pub fn dinkolafe_from_path(
            sheet: *const u8,
            sheet_len: usize,
            query: *const u8,
            query_len: usize,
            workspace: *mut u16,
            workspace_len: usize,
            value: *mut u64,
        ) -> u8;
        pub fn dinkolafe_new(
            indices: *const u16,
            indices_len: usize,
            out: *mut u16,
            out_len: usize,
            value: *mut u64,
        ) -> u8;
        pub fn dinkolafe_single(index: u16, out: *mut u16, out_len: usize, value: *mut u64) -> u8;
        pub fn dinkolafe_compare(
            left: *const u16,
            left_len: usize,
            right: *const u16,
            right_len: usize,
            value: *mut u64,
        ) -> u8;
        pub fn dinkolafe_schema_name(
            sheet: *const u8,
            sheet_len: usize,
            index: u16,
            start: *mut u64,
            stop: *mut u64,
        ) -> u8;
        pub fn dinkolafe_item_name(
            sheet: *const u8,
            sheet_len: usize,
            index: u16,
            start: *mut u64,
            stop: *mut u64,
        ) -> u8;
    }
}

/// The answer that a number and a value stand for.
fn answer(number: u8, value: u64) -> Answer<u64> {
    match number {
        0 => Ok(value),
        _ => Err(Refusal {
            number,
            place: value,
        }),
    }
}

/// Calls a function of the library: a slice is lent as its pointer and its length.
macro_rules! ask {
    ($function:ident($($argument:expr),*)) => {{
        let mut value = 0;
        // SAFETY: each pointer comes with its slice's length and lives through the call; what is written is lent by `&mut`.
        let number = unsafe { c::$function($($argument,)* &mut value) };
        answer(number, value)
    }};
}

// ---- Sheets: no workspace is borrowed.

/// Is the sheet accepted? 0 where it is.
pub fn verdict(sheet: &[u8]) -> Answer<u64> {
    ask!(dinkolafe_verdict(sheet.as_ptr(), sheet.len()))
}

/// The number of the declaration that a name means in a scope.
pub fn resolve(sheet: &[u8], query: &[u8]) -> Answer<u64> {
    ask!(dinkolafe_resolve(
        sheet.as_ptr(),
        sheet.len(),
        query.as_ptr(),
        query.len()
    ))
}

/// The number of the first declaration with a path.
pub fn get(sheet: &[u8], query: &[u8]) -> Answer<u64> {
    ask!(dinkolafe_get(
        sheet.as_ptr(),
        sheet.len(),
        query.as_ptr(),
        query.len()
    ))
}

/// Is a declaration with this number there? 0 where it is.
pub fn as_path(sheet: &[u8], index: u16) -> Answer<u64> {
    ask!(dinkolafe_as_path(sheet.as_ptr(), sheet.len(), index))
}

/// One scope against another: 0 less, 1 equal, 2 greater, 3 no order.
pub fn order(left: &[u8], right: &[u8]) -> Answer<u64> {
    ask!(dinkolafe_order(
        left.as_ptr(),
        left.len(),
        right.as_ptr(),
        right.len()
    ))
}

// ---- Supertypes and types: each borrows a workspace.

/// Is the path a supertype? 0 or 1.
pub fn is_supertype(sheet: &[u8], query: &[u8], workspace: &mut [u16]) -> Answer<u64> {
    ask!(dinkolafe_is_supertype(
        sheet.as_ptr(),
        sheet.len(),
        query.as_ptr(),
        query.len(),
        workspace.as_mut_ptr(),
        workspace.len()
    ))
}

/// The rows of the supertype's combinations: how many.
pub fn list(sheet: &[u8], query: &[u8], workspace: &mut [u16], out: &mut [u16]) -> Answer<u64> {
    ask!(dinkolafe_list(
        sheet.as_ptr(),
        sheet.len(),
        query.as_ptr(),
        query.len(),
        workspace.as_mut_ptr(),
        workspace.len(),
        out.as_mut_ptr(),
        out.len()
    ))
}

/// The number of a combination.
pub fn number_of(sheet: &[u8], query: &[u8], row: &[u16], workspace: &mut [u16]) -> Answer<u64> {
    ask!(dinkolafe_number_of(
        sheet.as_ptr(),
        sheet.len(),
        query.as_ptr(),
        query.len(),
        row.as_ptr(),
        row.len(),
        workspace.as_mut_ptr(),
        workspace.len()
    ))
}

/// The row of the combination with a number: 1.
pub fn row_at(
    sheet: &[u8],
    query: &[u8],
    number: usize,
    workspace: &mut [u16],
    out: &mut [u16],
) -> Answer<u64> {
    ask!(dinkolafe_row_at(
        sheet.as_ptr(),
        sheet.len(),
        query.as_ptr(),
        query.len(),
        number,
        workspace.as_mut_ptr(),
        workspace.len(),
        out.as_mut_ptr(),
        out.len()
    ))
}

/// The declaration's number of a supertype, by first entry.
pub fn supertype_at(sheet: &[u8], number: usize, workspace: &mut [u16]) -> Answer<u64> {
    ask!(dinkolafe_supertype_at(
        sheet.as_ptr(),
        sheet.len(),
        number,
        workspace.as_mut_ptr(),
        workspace.len()
    ))
}

/// An entity: 0, or 1 for a supertype. A type: 4, 2 more where it is simple, 1 more for an enumeration.
pub fn from_path(sheet: &[u8], query: &[u8], workspace: &mut [u16]) -> Answer<u64> {
    ask!(dinkolafe_from_path(
        sheet.as_ptr(),
        sheet.len(),
        query.as_ptr(),
        query.len(),
        workspace.as_mut_ptr(),
        workspace.len()
    ))
}

// ---- Parts.

/// The part with these names: 1 row.
pub fn new(indices: &[u16], out: &mut [u16]) -> Answer<u64> {
    ask!(dinkolafe_new(
        indices.as_ptr(),
        indices.len(),
        out.as_mut_ptr(),
        out.len()
    ))
}

/// The part with one name: 1 row.
pub fn single(index: u16, out: &mut [u16]) -> Answer<u64> {
    ask!(dinkolafe_single(index, out.as_mut_ptr(), out.len()))
}

/// One part against another: 0 before, 1 equal, 2 after.
pub fn compare(left: &[u16], right: &[u16]) -> Answer<u64> {
    ask!(dinkolafe_compare(
        left.as_ptr(),
        left.len(),
        right.as_ptr(),
        right.len()
    ))
}

// ---- Two parts; two lists, or a list and a part; several lists, as counts and all their rows. The value is how many rows the result has.

/// Questions of two operands, of which all have one form.
macro_rules! of_two_operands {
    ($($(#[$doc:meta])* $name:ident($left:ident, $right:ident) = $function:ident;)*) => {$(
        $(#[$doc])*
        pub fn $name($left: &[u16], $right: &[u16], out: &mut [u16]) -> Answer<u64> {
            extern "C" {
                fn $function(
                    left: *const u16,
                    left_len: usize,
                    right: *const u16,
                    right_len: usize,
                    out: *mut u16,
                    out_len: usize,
                    value: *mut u64,
                ) -> u8;
            }
            let (left, right) = ($left, $right);
            let mut value = 0;
            // SAFETY: as in `ask`.
            let number = unsafe {
                $function(
                    left.as_ptr(),
                    left.len(),
                    right.as_ptr(),
                    right.len(),
                    out.as_mut_ptr(),
                    out.len(),
                    &mut value,
                )
            };
            answer(number, value)
        }
    )*};
}

of_two_operands! {
    /// The part with the names of both: 1 row.
    join(left, right) = dinkolafe_join;
    /// A list and a list: the parts of both.
    add(left, right) = dinkolafe_add;
    /// A list and a part.
    add_part(left, right) = dinkolafe_add_part;
    /// A part and a list.
    part_add(left, right) = dinkolafe_part_add;
    /// A list and a list: each part joined with each.
    bitand(left, right) = dinkolafe_bitand;
    /// A list and a part.
    bitand_part(left, right) = dinkolafe_bitand_part;
    /// A part and a list.
    part_bitand(left, right) = dinkolafe_part_bitand;
    /// A list without another's parts.
    sub(left, right) = dinkolafe_sub;
    /// A list without a part.
    sub_part(left, right) = dinkolafe_sub_part;
    /// The parts of a list that contain some part of another.
    div(left, right) = dinkolafe_div;
    /// The parts of a list that contain a part.
    div_part(left, right) = dinkolafe_div_part;
    /// A part of one of the lists.
    oneof(counts, rows) = dinkolafe_oneof;
    /// The join of a part from every list.
    and(counts, rows) = dinkolafe_and;
    /// The join of one part each from one or more lists.
    andor(counts, rows) = dinkolafe_andor;
}

// ---- Names: the part of the sheet that holds one.

/// The name of the declaration's schema.
pub fn schema_name(sheet: &[u8], index: u16) -> Answer<&[u8]> {
    let (mut start, mut stop) = (0, 0);
    // SAFETY: as in `ask`.
    let number = unsafe {
        c::dinkolafe_schema_name(sheet.as_ptr(), sheet.len(), index, &mut start, &mut stop)
    };
    answer(number, start).map(|start| &sheet[start as usize..stop as usize])
}

/// The declaration's own name.
pub fn item_name(sheet: &[u8], index: u16) -> Answer<&[u8]> {
    let (mut start, mut stop) = (0, 0);
    // SAFETY: as in `ask`.
    let number = unsafe {
        c::dinkolafe_item_name(sheet.as_ptr(), sheet.len(), index, &mut start, &mut stop)
    };
    answer(number, start).map(|start| &sheet[start as usize..stop as usize])
}
