//! The walk: the list for the name and for each word, else a function of the ruleset and of the words lent to
//! it, built or not.

use super::broken::{broken, Break};
use super::exceptions::Exceptions;
use super::reading::{
    self, fitting, joined, listed_name, listed_word, no_fit, reached, sound_name, Said, Word,
};
use super::ruleset::Ruleset;
use super::tables::{count_words, sets_needed, words_needed, L, R, ROWS};
use super::{refuse, Answer};
use std::collections::HashMap;
use std::ops::Range;

/// One pass over one table: its rows, and how many states it may step to.
struct Pass<'a> {
    rows: &'a [u16],
    states: usize,
    state: usize,
    steps: usize,
}

impl Pass<'_> {
    /// The one place that looks up an entry; it carries the count.
    fn step(&mut self, symbol: u8) -> Answer<usize> {
        let next = self.rows[64 * self.state + symbol as usize] as usize;
        if next >= self.states {
            return refuse(16, 0);
        }
        self.state = next;
        self.steps += 1;
        Ok(next)
    }
}

/// The answer, and the steps: 0 with the refusals 1, 2, 16 and 22, and for a listed name.
pub fn walk(
    set: &Ruleset,
    list: &Exceptions,
    words: &[u16],
    sets: &[u64],
    name: &[u8],
    phones_lent: usize,
    numbers_lent: usize,
) -> (Answer<Said>, usize) {
    let mut steps = 0;
    let answer = spoken(set, list, words, sets, name, phones_lent, numbers_lent, &mut steps);
    match answer {
        Err(refused) if refused.number == 22 && broken(Break::StaleSteps) => (answer, 2 * name.len() + 2),
        Err(refused) if [1, 2, 16, 22].contains(&refused.number) => (answer, 0),
        _ => (answer, steps),
    }
}

fn spoken(
    set: &Ruleset,
    list: &Exceptions,
    words: &[u16],
    sets: &[u64],
    name: &[u8],
    phones_lent: usize,
    numbers_lent: usize,
    steps: &mut usize,
) -> Answer<Said> {
    sound_name(name)?;
    if let Some(said) = listed_name(list, name) {
        *steps = if broken(Break::ListedSteps) { 2 * name.len() + 2 } else { 0 };
        return said.within(phones_lent, numbers_lent);
    }
    let mut unlisted = reading::words(name);
    unlisted.retain(|word| listed_word(list, word).is_none());
    // "Where every word is listed, the tables are not judged."
    if !unlisted.is_empty() || broken(Break::TablesAlways) {
        if broken(Break::StaleFirst) {
            of_count(set, words)?;
        }
        usable(words, sets)?;
        if !broken(Break::StaleLast) {
            of_count(set, words)?;
        }
    } else if broken(Break::StaleAlways) {
        of_count(set, words)?;
    }
    // "All passes of unlisted words come first."
    let mut passed = HashMap::new();
    for word in &unlisted {
        if !broken(Break::LatePasses) {
            passed.insert(word.before, Passed::of(word, words, steps)?);
        }
    }
    if !unlisted.is_empty() && broken(Break::StaleLast) {
        of_count(set, words)?;
    }
    joined(list, name, phones_lent, numbers_lent, |word| match passed.get(&word.before) {
        Some(passed) => passed.read(word, set, words, sets),
        None => Passed::of(word, words, steps)?.read(word, set, words, sets),
    })
}

/// 16 where the words and set words are too few for their L and R, or one of these is zero.
pub fn usable(words: &[u16], sets: &[u64]) -> Answer<()> {
    let &[_, _, left, right, ..] = words else {
        return refuse(16, 0);
    };
    let (left, right) = (left as usize, right as usize);
    let enough = words.len() >= words_needed(left, right) && sets.len() >= sets_needed(left, right);
    if left == 0 || right == 0 || !enough {
        return refuse(16, 0);
    }
    Ok(())
}

/// 22 where the words have another edit count than the ruleset.
fn of_count(set: &Ruleset, words: &[u16]) -> Answer<()> {
    let count = count_words(set.edits);
    let differs = match words {
        [_, low, ..] if broken(Break::LowWord) => *low != count[1],
        [high, low, ..] if broken(Break::OlderOnly) => [*high, *low] < count,
        [high, low, ..] => [*high, *low] != count,
        // For a reference that compares before it judges the lengths.
        _ => false,
    };
    if differs {
        return refuse(22, 0);
    }
    Ok(())
}

/// The states after each position of a word: left from 0 to n, right from n + 1 down to 1.
struct Passed {
    left_after: [usize; 66],
    right_after: [usize; 66],
}

impl Passed {
    /// Both passes over a word, whose steps are counted, through words that are long enough.
    fn of(word: &Word, words: &[u16], steps: &mut usize) -> Answer<Passed> {
        let (left, right) = (words[L] as usize, words[R] as usize);
        let n = word.letters.len();
        let mut passed = Passed { left_after: [0; 66], right_after: [0; 66] };
        let mut pass = Pass { rows: &words[ROWS..], states: left, state: 0, steps: 0 };
        for i in 0..=n {
            passed.left_after[i] = pass.step(word.frame[i])?;
        }
        pass = Pass { rows: &words[ROWS + 64 * left..], states: right, state: 0, steps: pass.steps };
        for i in (1..=n + 1).rev() {
            passed.right_after[i] = pass.step(word.frame[i])?;
        }
        if n > 0 || !broken(Break::EmptyFree) {
            *steps += pass.steps;
        }
        Ok(passed)
    }

    /// The word's reached letters in turn: 3 or 16.
    fn read(&self, word: &Word, set: &Ruleset, words: &[u16], sets: &[u64]) -> Answer<Said> {
        let mut said = Said::default();
        let mut i = 1;
        while reached(i, word.letters.len()) {
            let left_set = &sets[8 * self.left_after[i - 1]..][..8];
            let right_set = &sets[8 * (words[L] as usize + self.right_after[i])..][..8];
            let Some(place) = chosen(left_set, right_set) else {
                return no_fit(word, i);
            };
            let contenders = match () {
                _ if broken(Break::FittingShared) => fitting(set, &word.frame, i).count(),
                _ if broken(Break::WithinList) => shared_among(0..set.literal_total(), left_set, right_set),
                _ if broken(Break::OneWord) => {
                    let start = place / 64 * 64;
                    shared_among(start..start + 64, left_set, right_set)
                }
                _ => shared(left_set, right_set),
            };
            match set.literal(place) {
                Some((number, rule)) if rule.fits(&set.classes, &word.frame, i) => {
                    i += said.apply(number, &rule, contenders)
                }
                _ => return refuse(16, 0),
            }
        }
        Ok(said)
    }
}

/// "The rule of lowest place is the lowest set bit of the eight words."
fn chosen(left: &[u64], right: &[u64]) -> Option<usize> {
    if broken(Break::Later) {
        return (0..512).rev().find(|place| both_hold(left, right, *place));
    }
    (0..512).find(|place| both_hold(left, right, *place))
}

fn both_hold(left: &[u64], right: &[u64], place: usize) -> bool {
    (left[place / 64] & right[place / 64]) >> (place % 64) & 1 == 1
}

/// "The places its two sets share", whatever the tables are: the bits of the eight intersected words.
fn shared(left: &[u64], right: &[u64]) -> usize {
    left.iter().zip(right).map(|(left, right)| (left & right).count_ones() as usize).sum()
}

/// Only some of them, for a reference that is wrong on purpose.
fn shared_among(places: Range<usize>, left: &[u64], right: &[u64]) -> usize {
    places.filter(|place| both_hold(left, right, *place)).count()
}
