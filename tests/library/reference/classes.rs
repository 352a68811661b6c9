//! Letter classes, and the literal rules that a rule with classes means. The plain reading asks whether a letter
//! is of a class; the tables and the walk go by literal rules, each made from its own number within its rule.

use super::broken::{broken, Break};
use super::rule::{is_letter, Rule};
use std::ops::RangeInclusive;

pub const SYMBOLS: RangeInclusive<u8> = 0x40..=0x5F;
pub const CLASSES: usize = 32;
pub const MOST_LETTERS: usize = 32;

/// The letters of each class, in the order of the symbols; a class that is undefined has none.
#[derive(Clone, Default, PartialEq, Debug)]
pub struct Classes {
    letters: [Vec<u8>; CLASSES],
}

pub fn is_class(symbol: u8) -> bool {
    SYMBOLS.contains(&symbol)
}

/// "Each a set of 1 to 32 letters", strictly ascending.
pub fn sound_class(symbol: u8, letters: &[u8]) -> bool {
    is_class(symbol)
        && (1..=MOST_LETTERS).contains(&letters.len())
        && letters.iter().all(|&letter| is_letter(letter))
        && letters.windows(2).all(|pair| pair[0] < pair[1])
}

impl Classes {
    pub fn set(&mut self, symbol: u8, letters: &[u8]) {
        self.letters[index(symbol)] = letters.to_vec();
    }

    pub fn letters(&self, symbol: u8) -> &[u8] {
        &self.letters[index(symbol)]
    }

    /// The defined ones with their symbols, which ascend.
    pub fn defined(&self) -> impl Iterator<Item = (u8, &[u8])> {
        SYMBOLS.map(|symbol| (symbol, self.letters(symbol))).filter(|(_, letters)| !letters.is_empty())
    }

    /// Whether a letter or # may stand where the symbol stands.
    pub fn admits(&self, symbol: u8, letter: u8) -> bool {
        match is_class(symbol) {
            true => self.letters(symbol).contains(&letter),
            false => symbol == letter,
        }
    }

    /// Whether all classes of a rule are defined.
    pub fn define(&self, rule: &Rule) -> bool {
        used(rule).all(|symbol| !self.letters(symbol).is_empty())
    }

    /// How many literal rules it means.
    pub fn literal_count(&self, rule: &Rule) -> usize {
        used(rule).map(|symbol| self.letters(symbol).len()).fold(1, usize::saturating_mul)
    }

    /// The literal rule of this number among those of a rule, from 0: "the leftmost symbol varying slowest,
    /// letters ascending". So the number's last digit is the rightmost class's.
    pub fn literal(&self, rule: &Rule, which: usize) -> Rule {
        let mut literal = *rule;
        let mut digits = which;
        let mut choose = |symbol: &mut u8| {
            if is_class(*symbol) {
                let letters = self.letters(*symbol);
                let digit = digits % letters.len();
                digits /= letters.len();
                let last = letters.len() - 1;
                *symbol = letters[if broken(Break::Descending) { last - digit } else { digit }];
            }
        };
        let (left, right) = literal.contexts_mut();
        if broken(Break::RightSlowest) {
            left.iter_mut().chain(right).for_each(&mut choose);
        } else {
            right.iter_mut().rev().for_each(&mut choose);
            left.iter_mut().rev().for_each(&mut choose);
        }
        literal
    }
}

/// The classes in a rule's contexts, each as often as it stands there.
pub fn used(rule: &Rule) -> impl Iterator<Item = u8> + '_ {
    rule.left().iter().chain(rule.right()).copied().filter(|&symbol| is_class(symbol))
}

fn index(symbol: u8) -> usize {
    (symbol - SYMBOLS.start()) as usize
}
