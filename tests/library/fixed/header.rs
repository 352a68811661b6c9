//! The limits and sizes of host/pirrozketa.h, as a C compiler reads them and as its comments tell them, against the
//! reference's own. Limits are the papers', and most sizes follow from them; how a ruleset and a list lie in memory no
//! paper tells: there the reference has the library's layout. And the header's version against the library's.

use crate::lent::{header_size, version};
use crate::random::Random;
use crate::reference::classes::{CLASSES, MOST_LETTERS};
use crate::reference::exceptions::{LIST, MOST_PHONES, READ_OUT};
use crate::reference::file::LONGEST;
use crate::reference::image::{HEAD, IMAGE, LITERAL, LITERALS, MASK, MASKS, NUMBER, SLOT, TOTAL};
use crate::reference::many::REPLY;
use crate::reference::rule::{CONTEXT, PHONES, RULE, STARTS, TARGET};
use crate::reference::ruleset::MOST_RULES;
use crate::reference::sheet::{kept_needed, tree_needed, MOST_NAMES};
use crate::reference::tables::{sets_needed, words_needed, MOST_LEFT, MOST_RIGHT};
use crate::tally::Tally;
use std::ffi::CStr;

const TEXT: &str = include_str!("../../../host/pirrozketa.h");

pub fn header(tally: &mut Tally, _: &mut Random) {
    let own: [(&CStr, usize); 27] = [
        (c"CONTEXT", CONTEXT),
        (c"TARGET", TARGET),
        (c"RULE_PHONES", PHONES),
        (c"RULES", MOST_RULES),
        (c"CLASSES", CLASSES),
        (c"CLASS", MOST_LETTERS),
        (c"NAME", 64),
        (c"LISTED_PHONES", MOST_PHONES),
        (c"LEFT_AT", STARTS[0]),
        (c"TARGET_AT", STARTS[1]),
        (c"RIGHT_AT", STARTS[2]),
        (c"PHONES_AT", STARTS[3]),
        (c"RULE", RULE),
        (c"REPLY", REPLY),
        (c"IMAGE", IMAGE),
        (c"LIST", LIST),
        (c"LEFT_STATES", MOST_LEFT),
        (c"RIGHT_STATES", MOST_RIGHT),
        (c"WORDS", words_needed(MOST_LEFT, MOST_RIGHT)),
        (c"SETS", sets_needed(MOST_LEFT, MOST_RIGHT)),
        (c"PHONES", 32 * MOST_PHONES),
        (c"NUMBERS", 64),
        (c"FILE", LONGEST),
        (c"READ_OUT", READ_OUT),
        (c"SHEET_NAMES", MOST_NAMES),
        (c"TREE", tree_needed(usize::MAX)),
        (c"KEPT", kept_needed(usize::MAX)),
    ];
    for (name, size) in own {
        let name_text = name.to_string_lossy();
        tally.equal(&name_text, header_size(name), size);
        tally.equal(&format!("the comment on {name_text}"), told(&name_text), Some(size));
    }
    tally.equal("no such size", header_size(c"NONE"), usize::MAX);
    tally.equal("the version linked", usize::from(version()), header_size(c"VERSION"));
    let (major, minor) = (header_size(c"VERSION_MAJOR"), header_size(c"VERSION_MINOR"));
    tally.equal("the header's version", header_size(c"VERSION"), 256 * major + minor);
    let change = format!("\n * {major}.{minor} has ");
    tally.check(TEXT.contains(&change), || format!("the header does not say what {major}.{minor} has"));
    layout(tally);
}

/// What a size of the header is, by its plain number or else by the number first in its comment.
fn told(name: &str) -> Option<usize> {
    let (_, value) = TEXT.split_once(&format!(" PIRROZKETA_{name} = "))?;
    let (plain, rest) = value.split_at(value.find(|symbol: char| !symbol.is_ascii_digit())?);
    if rest.starts_with(',') || rest.trim_start().starts_with("/*") {
        return plain.parse().ok();
    }
    let (_, comment) = value.split_once("/* ")?;
    let number = comment.split(|symbol: char| !symbol.is_ascii_digit() && symbol != ',').next()?;
    number.replace(',', "").parse().ok()
}

/// The numbers in what the header tells of a ruleset's memory.
fn layout(tally: &mut Tally) {
    let text = TEXT.split_whitespace().filter(|word| *word != "*").collect::<Vec<_>>().join(" ");
    let lines = [
        format!("{HEAD} {MOST_RULES} slots of {SLOT} bytes in the order of the rules: number ({NUMBER}), then the rule as it is added ({RULE})"),
        format!("{} the {CLASSES} classes 64 to 95, {MASK} bytes each", thousands(MASKS)),
        format!("{} how many literal rules there are ({})", thousands(TOTAL), LITERALS - TOTAL),
        format!("{} {MOST_RULES} places of {LITERAL} bytes", thousands(LITERALS)),
    ];
    for line in lines {
        tally.check(text.contains(&line), || format!("the header does not say: {line}"));
    }
}

/// With a comma before the last three digits.
fn thousands(number: usize) -> String {
    format!("{},{:03}", number / 1_000, number % 1_000)
}
