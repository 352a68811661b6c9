//! Document 01 and the landed requests of document 02 once more, from their text and in safe Rust: what the
//! library's answers are held against. Plain before fast, so that it can be read beside the papers. What they
//! leave free is the library's: `image` has its ruleset's memory, `list_words` its list's.

#![forbid(unsafe_code)]

pub mod broken;
pub mod classes;
pub mod exceptions;
pub mod file;
pub mod image;
pub mod list_words;
pub mod many;
pub mod reading;
pub mod rule;
pub mod ruleset;
pub mod sheet;
pub mod tables;
pub mod walk;

/// The code of a call that meets no refusal (the header's; the paper has no number for it).
pub const ACCEPTED: u8 = 255;

/// "The answer is a number with a place."
#[derive(Clone, Copy, PartialEq, Debug)]
pub struct Refused {
    pub number: u8,
    pub place: usize,
}

pub type Answer<T> = Result<T, Refused>;

pub fn refuse<T>(number: u8, place: usize) -> Answer<T> {
    Err(Refused { number, place })
}
