//! Calls of the library on lent memory, each held against the reference: its answer, and every item of
//! the memory that it was lent, with guards on both sides.

mod binding;
mod edits;
mod files;
pub mod lists;
mod memory;
mod names;
mod sheets;
mod tables;

pub use edits::{add, check, clear, drop, edits, set_class, shift};
pub use files::{read_file, write_file};
pub use lists::List;
pub use memory::Lent;
pub use names::{read_name, read_own_bytes, speak, speak_many, Heard, Room};
pub use sheets::{speak_sheet, Work};
pub use tables::{build, Compiled};

use crate::reference::{Answer, ACCEPTED};
use std::ffi::CStr;

/// What stands in the numbers that a call gives before it is made: "written in every case".
const UNWRITTEN: usize = 0x5EED_5EED;

/// A code and a place, where an accepted call's place is the number given here.
fn code_and_place(answer: &Answer<usize>) -> (u8, usize) {
    match answer {
        Ok(given) => (ACCEPTED, *given),
        Err(refused) => (refused.number, refused.place),
    }
}

/// A size of the header, by its name without PIRROZKETA_, as a C compiler reads it; the highest number for another name.
pub fn header_size(name: &CStr) -> usize {
    unsafe { binding::header_size(name.as_ptr()) }
}

/// The version of the library that is linked.
pub fn version() -> u16 {
    unsafe { binding::pirrozketa_version() }
}

/// The codes that the header names with each call, in rising order.
pub const NAMED: [(&str, &[u8]); 20] = [
    ("clear", &[0, 255]),
    ("check", &[0, 255]),
    ("add", &[0, 6, 7, 10, 20, 21, 23, 255]),
    ("drop", &[0, 8, 23, 255]),
    ("move", &[0, 7, 8, 23, 255]),
    ("set_class", &[0, 20, 255]),
    ("read_file", &[0, 13, 14, 255]),
    ("write_file", &[0, 15, 255]),
    ("build", &[0, 11, 12, 255]),
    ("list_clear", &[17, 255]),
    ("list_check", &[17, 255]),
    ("list_add", &[1, 2, 17, 19, 255]),
    ("list_remove", &[1, 2, 17, 18, 19, 255]),
    ("list_read_out", &[15, 17, 255]),
    ("read_name", &[0, 1, 2, 3, 4, 5, 17, 255]),
    ("speak", &[0, 1, 2, 3, 4, 5, 16, 17, 22, 255]),
    ("speak_many", &[0, 17, 255]),
    ("speak_many's reply", &[1, 2, 3, 4, 5, 16, 22, 255]),
    ("speak_sheet", &[0, 11, 12, 15, 16, 17, 22, 24, 255]),
    ("speak_sheet's reply", &[1, 2, 3, 4, 5, 255]),
];
