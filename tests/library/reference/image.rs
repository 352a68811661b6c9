//! A ruleset as bytes, as the header lays them out: count, `last` and edit count, 512 slots of a number and the bytes
//! of a rule, a mask of 64 bits for each of the 32 classes, the literal total, and for each literal rule the place of
//! its numbered rule and which of that rule's literal rules it is. All high byte first.

use super::broken::{broken, Break};
use super::classes::{Classes, CLASSES, SYMBOLS};
use super::rule::{Rule, RULE};
use super::ruleset::{Ruleset, MOST_RULES};

pub const EDITS: usize = 4;
pub const HEAD: usize = 8;
pub const NUMBER: usize = 2;
pub const SLOT: usize = NUMBER + RULE;
pub const MASKS: usize = HEAD + SLOT * MOST_RULES;
pub const MASK: usize = 8;
pub const TOTAL: usize = MASKS + MASK * CLASSES;
pub const LITERALS: usize = TOTAL + 2;
pub const LITERAL: usize = 4;
pub const IMAGE: usize = LITERALS + LITERAL * MOST_RULES;

/// A two-byte field; 0 where the memory is too short for a ruleset.
fn field(image: &[u8], at: usize) -> u16 {
    if image.len() < IMAGE {
        return 0;
    }
    u16::from_be_bytes([image[at], image[at + 1]])
}

pub fn count(image: &[u8]) -> u16 {
    field(image, 0)
}

pub fn last(image: &[u8]) -> u16 {
    field(image, 2)
}

pub fn edits(image: &[u8]) -> u32 {
    (field(image, EDITS) as u32) << 16 | field(image, EDITS + 2) as u32
}

/// The ruleset in the memory; None is refusal 0.
pub fn decode(image: &[u8]) -> Option<Ruleset> {
    let held = count(image) as usize;
    if image.len() < IMAGE || held > MOST_RULES {
        return None;
    }
    let rules = (0..held).map(|k| {
        let slot = &image[HEAD + SLOT * k..][..SLOT];
        let rule: [u8; RULE] = slot[NUMBER..].try_into().expect("a slot has a number and a rule");
        (u16::from_be_bytes([slot[0], slot[1]]), Rule(rule))
    });
    let set =
        Ruleset { last: last(image), rules: rules.collect(), classes: classes(image), edits: edits(image) };
    (set.valid() && (broken(Break::AnyTable) || literal_table(&set) == image[TOTAL..][..table_length(&set)]))
        .then_some(set)
}

/// Every mask that is not zero is a class; bits of no letter are for the ruleset's judgement.
fn classes(image: &[u8]) -> Classes {
    let mut classes = Classes::default();
    for (symbol, mask) in SYMBOLS.zip(image[MASKS..TOTAL].chunks(MASK)) {
        let mask = u64::from_be_bytes(mask.try_into().expect("a mask has 8 bytes"));
        let letters = if broken(Break::AnyMask) { 1..63 } else { 0..64 };
        let letters: Vec<u8> = letters.filter(|letter| mask >> letter & 1 == 1).collect();
        classes.set(symbol, &letters);
    }
    classes
}

/// The total, then four bytes a literal rule, no more than the memory has room for.
fn literal_table(set: &Ruleset) -> Vec<u8> {
    let mut bytes = (set.literal_total().min(65_535) as u16).to_be_bytes().to_vec();
    for (place, (_, rule)) in (0u16..).zip(&set.rules) {
        for which in 0..set.classes.literal_count(rule).min(MOST_RULES) as u16 {
            bytes.extend(place.to_be_bytes());
            bytes.extend(which.to_be_bytes());
        }
    }
    bytes.truncate(IMAGE - TOTAL);
    bytes
}

fn table_length(set: &Ruleset) -> usize {
    LITERALS - TOTAL + LITERAL * set.literal_total()
}

/// Puts a ruleset into the memory. Slots past its rules and literal rules past their total keep their contents:
/// they lie past what is given. Of rules beyond 512, only their count is told.
pub fn put(set: &Ruleset, image: &mut [u8]) {
    image[..2].copy_from_slice(&(set.rules.len() as u16).to_be_bytes());
    image[2..EDITS].copy_from_slice(&set.last.to_be_bytes());
    image[EDITS..HEAD].copy_from_slice(&set.edits.to_be_bytes());
    for (k, (number, rule)) in set.rules.iter().take(MOST_RULES).enumerate() {
        let slot = &mut image[HEAD + SLOT * k..][..SLOT];
        slot[..NUMBER].copy_from_slice(&number.to_be_bytes());
        slot[NUMBER..].copy_from_slice(&rule.0);
    }
    for (symbol, mask) in SYMBOLS.zip(image[MASKS..TOTAL].chunks_mut(MASK)) {
        let bits = set.classes.letters(symbol).iter().fold(0u64, |bits, letter| bits | 1 << letter);
        mask.copy_from_slice(&bits.to_be_bytes());
    }
    let table = literal_table(set);
    image[TOTAL..][..table.len()].copy_from_slice(&table);
}
