//! The ledger: numbered rules in order, `last`, the classes and the edit count, with its four edits; and the literal
//! rules that they mean together.

use super::broken::{broken, Break};
use super::classes::{sound_class, used, Classes};
use super::rule::Rule;
use super::{refuse, Answer};
use std::collections::HashSet;

#[derive(Clone, Default)]
pub struct Ruleset {
    pub last: u16,
    pub rules: Vec<(u16, Rule)>,
    pub classes: Classes,
    /// How many additions, drops and moves were accepted.
    pub edits: u32,
}

/// Literal rules, and so numbered ones.
pub const MOST_RULES: usize = 512;

impl Ruleset {
    /// Whether it is a ruleset at all (refusal 0).
    pub fn valid(&self) -> bool {
        let mut seen = HashSet::new();
        let held = [broken(Break::LongLeftHeld), broken(Break::LongRightHeld)];
        self.rules.len() <= MOST_RULES
            && self.rules.iter().all(|(number, rule)| {
                (1..=self.last).contains(number)
                    && seen.insert(*number)
                    && rule.shaped(held)
                    && self.classes.define(rule)
            })
            && self.classes.defined().all(|(symbol, letters)| sound_class(symbol, letters))
            && self.literal_total() <= MOST_RULES
    }

    /// How many literal rules there are; of classes in any number and of any size.
    pub fn literal_total(&self) -> usize {
        let counts = self.rules.iter().map(|(_, rule)| self.classes.literal_count(rule));
        counts.fold(0, usize::saturating_add)
    }

    /// The literal rule at a place among all, with its rule's number. None past the last.
    pub fn literal(&self, place: usize) -> Option<(u16, Rule)> {
        if broken(Break::ListPlace) {
            return self.rules.get(place).copied();
        }
        let mut which = place;
        for (number, rule) in &self.rules {
            let count = self.classes.literal_count(rule);
            if which < count {
                return Some((*number, self.classes.literal(rule, which)));
            }
            which -= count;
        }
        None
    }

    /// All of them, in the order of the numbered rules.
    pub fn literals(&self) -> Vec<Rule> {
        let of_rule = |(_, rule): &(u16, Rule)| -> Vec<Rule> {
            (0..self.classes.literal_count(rule)).map(|which| self.classes.literal(rule, which)).collect()
        };
        self.rules.iter().flat_map(of_rule).collect()
    }

    /// Refusals 6, 20, 7, 21, 10, then 23.
    pub fn add(&mut self, rule: &[u8], p: usize) -> Answer<()> {
        self.counted(|set| set.added(rule, p))
    }

    /// Refusals 8, then 23.
    pub fn drop(&mut self, number: u16) -> Answer<()> {
        if broken(Break::DropUncounted) {
            return self.dropped(number);
        }
        self.counted(|set| set.dropped(number))
    }

    /// Refusals 8, 7, then 23.
    pub fn shift(&mut self, number: u16, p: usize) -> Answer<()> {
        if broken(Break::IdleMove) && self.place_of(number) == Some(p) {
            return Ok(());
        }
        self.counted(|set| set.shifted(number, p))
    }

    /// Refusal 20, "again only while no held rule uses it".
    pub fn set_class(&mut self, symbol: u8, letters: &[u8]) -> Answer<()> {
        if broken(Break::ClassCounts) {
            return self.counted(|set| set.with_class(symbol, letters));
        }
        self.with_class(symbol, letters)
    }

    /// One edit more is counted where it is accepted; 23 is the "last check of every addition, drop and move".
    fn counted(&mut self, edit: impl FnOnce(&mut Ruleset) -> Answer<()>) -> Answer<()> {
        let mut after = self.clone();
        let answer = edit(&mut after);
        let spent = self.edits == u32::MAX && !broken(Break::ComesRound);
        match answer {
            _ if spent && broken(Break::SpentFirst) => return refuse(23, 0),
            Err(_) if broken(Break::RefusedCounts) => self.edits = self.edits.saturating_add(1),
            Err(_) => {}
            Ok(()) if spent => return refuse(23, 0),
            Ok(()) => *self = Ruleset { edits: self.edits.wrapping_add(1), ..after },
        }
        answer
    }

    /// Refusals 6, 20, 7, 21, 10, in this order. The header counts another number of bytes as a broken shape.
    fn added(&mut self, rule: &[u8], p: usize) -> Answer<()> {
        let longer = [broken(Break::LongLeftAdded), broken(Break::LongRightAdded)];
        let Some(rule) = rule.try_into().ok().map(Rule).filter(|rule| rule.shaped(longer)) else {
            return refuse(6, 0);
        };
        if !self.classes.define(&rule) && !broken(Break::Undefined) {
            return refuse(20, 0);
        }
        if p > self.rules.len() {
            return refuse(7, 0);
        }
        if self.literal_total() + self.classes.literal_count(&rule) > MOST_RULES {
            // What is wrong is the answer: so many literal rules would have no end.
            let accepts = broken(Break::NumberedLimit) && self.rules.len() < MOST_RULES;
            return if accepts { Ok(()) } else { refuse(21, 0) };
        }
        if self.last == 65_535 {
            return refuse(10, 0);
        }
        self.last += 1;
        self.rules.insert(p, (self.last, rule));
        Ok(())
    }

    fn dropped(&mut self, number: u16) -> Answer<()> {
        let Some(at) = self.place_of(number) else {
            return refuse(8, 0);
        };
        self.rules.remove(at);
        if broken(Break::GiveBack) && number == self.last {
            self.last -= 1;
        }
        Ok(())
    }

    /// 7 is judged against the remaining list.
    fn shifted(&mut self, number: u16, p: usize) -> Answer<()> {
        let Some(at) = self.place_of(number) else {
            return refuse(8, 0);
        };
        if p > self.rules.len() - 1 {
            return refuse(7, 0);
        }
        let rule = self.rules.remove(at);
        self.rules.insert(p, rule);
        Ok(())
    }

    fn with_class(&mut self, symbol: u8, letters: &[u8]) -> Answer<()> {
        let in_use = self.rules.iter().any(|(_, rule)| used(rule).any(|other| other == symbol));
        if !sound_class(symbol, letters) || in_use && !broken(Break::SetInUse) {
            return refuse(20, 0);
        }
        self.classes.set(symbol, letters);
        Ok(())
    }

    fn place_of(&self, number: u16) -> Option<usize> {
        self.rules.iter().position(|(held, _)| *held == number)
    }
}
