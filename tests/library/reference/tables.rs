//! The two tables, over the literal rules and straight from their definition: every entry looks for the longest
//! suffix anew. Before them stands the edit count of the ruleset that they are built from.

use super::broken::{broken, Break};
use super::rule::{CONTEXT, TARGET};
use super::ruleset::{Ruleset, MOST_RULES};
use super::{refuse, Answer};
use std::collections::HashMap;

pub struct Tables {
    pub words: Vec<u16>,
    pub sets: Vec<u64>,
    /// The strings of the right states in order (the paper's M10 names them).
    pub right_strings: Vec<Vec<u8>>,
}

/// Where L and R stand, after the two words of the edit count, and where the left rows start.
pub const L: usize = 2;
pub const R: usize = 3;
pub const ROWS: usize = 4;

/// "The state bounds": the empty string, and as many as there are rules for each symbol of a pattern.
pub const MOST_LEFT: usize = 1 + MOST_RULES * CONTEXT;
pub const MOST_RIGHT: usize = 1 + MOST_RULES * (TARGET + CONTEXT);

pub fn words_needed(left: usize, right: usize) -> usize {
    ROWS + 64 * (left + right)
}

/// "This count, high word first, into two words before L."
pub fn count_words(edits: u32) -> [u16; 2] {
    let (high, low) = ((edits >> 16) as u16, edits as u16);
    if broken(Break::LowFirst) {
        return [low, high];
    }
    [high, low]
}

pub fn sets_needed(left: usize, right: usize) -> usize {
    8 * (left + right)
}

pub fn build(set: &Ruleset) -> Tables {
    let rules = set.literals();
    let lefts = rules.iter().map(|rule| rule.left().to_vec());
    let rights = rules.iter().map(|rule| rule.right_pattern());
    let (left, right) = (Side::new(lefts.collect()), Side::new(rights.collect()));
    let mut words = count_words(set.edits).to_vec();
    words.extend([left.strings.len() as u16, right.strings.len() as u16]);
    let mut sets = Vec::new();
    for side in [&left, &right] {
        for string in &side.strings {
            words.extend((0..64).map(|symbol| side.entry(string, symbol)));
            sets.extend(side.set(string));
        }
    }
    Tables { words, sets, right_strings: right.strings }
}

/// Refusals 11 and 12 of the build.
pub fn room(tables: &Tables, words_lent: usize, sets_lent: usize) -> Answer<()> {
    if words_lent < tables.words.len() {
        return refuse(11, tables.words.len());
    }
    if sets_lent < tables.sets.len() {
        return refuse(12, tables.sets.len());
    }
    Ok(())
}

struct Side {
    strings: Vec<Vec<u8>>,
    numbered: HashMap<Vec<u8>, u16>,
    places: HashMap<Vec<u8>, Vec<usize>>,
}

impl Side {
    /// "Take the rules in order and each pattern's prefixes, shortest first; each string not yet
    /// numbered gets the next number."
    fn new(patterns: Vec<Vec<u8>>) -> Side {
        let mut side = Side { strings: Vec::new(), numbered: HashMap::new(), places: HashMap::new() };
        side.number(&[]);
        for (place, pattern) in patterns.iter().enumerate() {
            for length in 1..=pattern.len() {
                side.number(&pattern[..length]);
            }
            side.places.entry(pattern.clone()).or_default().push(place);
        }
        side
    }

    fn number(&mut self, string: &[u8]) {
        if !self.numbered.contains_key(string) {
            self.numbered.insert(string.to_vec(), self.strings.len() as u16);
            self.strings.push(string.to_vec());
        }
    }

    /// "The state of the longest suffix of (q's string, then c) that is numbered."
    fn entry(&self, string: &[u8], symbol: u8) -> u16 {
        let longer = [string, &[symbol]].concat();
        let mut suffixes = (0..=longer.len()).map(|start| &longer[start..]);
        suffixes.find_map(|suffix| self.numbered.get(suffix).copied()).expect("the empty string is state 0")
    }

    /// "The places of all rules whose pattern is a suffix of q's string": place 64 j + k is bit k of word j.
    fn set(&self, string: &[u8]) -> [u64; 8] {
        let mut words = [0; 8];
        for start in 0..=string.len() {
            if start > 0 && broken(Break::Inside) {
                break;
            }
            for place in self.places.get(&string[start..]).into_iter().flatten() {
                words[place / 64] |= 1 << (place % 64);
            }
        }
        words
    }
}
