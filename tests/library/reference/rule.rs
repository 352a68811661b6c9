//! A rule, its shape, and where it fits.

use super::broken::{broken, Break};
use super::classes::{is_class, Classes};

/// "Make 4 the limit for left and right." It stands here alone: sizes, bounds and what is tried follow from it.
pub const CONTEXT: usize = 4;
pub const TARGET: usize = 4;
pub const PHONES: usize = 4;

/// The bytes in which a rule is handed over: the four lengths, then room for left context, target, right context and
/// phones.
pub const RULE: usize = LENGTHS + CONTEXT + TARGET + CONTEXT + PHONES;
pub const LENGTHS: usize = 4;

/// Where each of these parts starts, and how much it holds at most.
pub const STARTS: [usize; 4] = [LENGTHS, LENGTHS + CONTEXT, LENGTHS + CONTEXT + TARGET, RULE - PHONES];
pub const MOST: [usize; 4] = [CONTEXT, TARGET, CONTEXT, PHONES];

/// The bytes are held whole, because an edit carries those past a part's length along.
#[derive(Clone, Copy)]
pub struct Rule(pub [u8; RULE]);

pub fn is_letter(byte: u8) -> bool {
    (0x01..=0x3E).contains(&byte) || broken(Break::SpaceInRules) && byte == SPACE
}

/// Separates the words of a name, and stands in no rule.
pub const SPACE: u8 = 0x3F;

impl Rule {
    /// None where a part is longer than there are bytes for it; the shape is not judged.
    pub fn new(parts: [&[u8]; 4]) -> Option<Rule> {
        let mut bytes = [0; RULE];
        for k in 0..4 {
            if parts[k].len() > MOST[k] {
                return None;
            }
            bytes[k] = parts[k].len() as u8;
            bytes[STARTS[k]..][..parts[k].len()].copy_from_slice(parts[k]);
        }
        Some(Rule(bytes))
    }

    fn part(&self, k: usize) -> &[u8] {
        &self.0[STARTS[k]..][..self.0[k] as usize]
    }

    pub fn left(&self) -> &[u8] {
        self.part(0)
    }

    pub fn target(&self) -> &[u8] {
        self.part(1)
    }

    pub fn right(&self) -> &[u8] {
        self.part(2)
    }

    pub fn phones(&self) -> &[u8] {
        self.part(3)
    }

    pub fn contexts_mut(&mut self) -> (&mut [u8], &mut [u8]) {
        let (left, right) = (self.0[0] as usize, self.0[2] as usize);
        let (before, after) = self.0.split_at_mut(STARTS[2]);
        (&mut before[STARTS[0]..][..left], &mut after[..right])
    }

    /// "# may stand only first in a left context or last in a right one"; classes "may stand in contexts,
    /// never in targets". Only a reference that is wrong on purpose lets a left or a right context be one symbol
    /// longer, which then runs on into the next part.
    pub fn shaped(&self, longer: [bool; 2]) -> bool {
        let context = CONTEXT - broken(Break::ShortContexts) as usize;
        let most = [context + longer[0] as usize, TARGET, context + longer[1] as usize, PHONES];
        if (0..4).any(|k| self.0[k] as usize > most[k]) || self.target().is_empty() {
            return false;
        }
        let left = self.left().iter().enumerate();
        let right = self.right().iter().rev().enumerate();
        let in_context = |symbol| is_letter(symbol) || is_class(symbol);
        let in_target = |symbol| is_letter(symbol) || broken(Break::ClassInTarget) && is_class(symbol);
        left.chain(right).all(|(at, &symbol)| in_context(symbol) || (symbol == 0 && at == 0))
            && self.target().iter().all(|&letter| in_target(letter))
            && self.phones().iter().all(|&phone| phone != 0)
    }

    /// Whether it fits at position i of a framed word, by membership where its contexts have classes.
    pub fn fits(&self, classes: &Classes, frame: &[u8], i: usize) -> bool {
        let (before, after) = (self.left().len(), self.target().len() + self.right().len());
        let symbols = [self.left(), self.target(), self.right()].concat();
        i >= before
            && i + after <= frame.len()
            && symbols.iter().zip(&frame[i - before..]).all(|(&symbol, &letter)| classes.admits(symbol, letter))
    }

    /// "Right patterns are target and right context joined, then reversed."
    pub fn right_pattern(&self) -> Vec<u8> {
        let mut pattern = [self.target(), self.right()].concat();
        pattern.reverse();
        pattern
    }
}
