//! The words of a name, and the plain reading: the list for the name and for each word, else the rules tried
//! in order, without tables.

use super::broken::{broken, Break};
use super::exceptions::Exceptions;
use super::rule::{is_letter, Rule, SPACE};
use super::ruleset::Ruleset;
use super::{refuse, Answer};

/// Letters and spaces that a name has at most.
pub const MOST_LETTERS: usize = 64;

#[derive(Default, PartialEq, Debug)]
pub struct Said {
    pub phones: Vec<u8>,
    pub numbers: Vec<u16>,
    /// "The number of reached letters with more than one" rule that fits.
    pub contested: usize,
}

impl Said {
    /// Applies a rule at a letter at which so many contend, and gives how far reading moves on.
    pub fn apply(&mut self, number: u16, rule: &Rule, contenders: usize) -> usize {
        self.phones.extend(rule.phones());
        self.numbers.push(number);
        let counts = if broken(Break::ExactlyOne) { contenders == 1 } else { contenders > 1 };
        self.contested += counts as usize;
        let onward = if broken(Break::Onward) { rule.right().len() } else { 0 };
        rule.target().len() + onward
    }

    fn join(&mut self, word: Said) {
        self.phones.extend(word.phones);
        self.numbers.extend(word.numbers);
        if broken(Break::LastWord) {
            self.contested = 0;
        }
        self.contested += word.contested;
    }

    /// Refusals 4 and 5, which come when all is read: their places are the full needs.
    pub fn within(self, phones_lent: usize, numbers_lent: usize) -> Answer<Said> {
        if self.phones.len() > phones_lent {
            return refuse(4, self.phones.len());
        }
        if self.numbers.len() > numbers_lent {
            return refuse(5, self.numbers.len());
        }
        Ok(self)
    }
}

/// Refusals 2 and 1, in this order.
pub fn sound_name(name: &[u8]) -> Answer<()> {
    if name.len() > MOST_LETTERS {
        return refuse(2, 0);
    }
    match name.iter().position(|&byte| !is_letter(byte) && byte != SPACE) {
        Some(index) => refuse(1, index),
        None => Ok(()),
    }
}

/// A word in its frame, and how many positions of the whole name stand before its letters.
pub struct Word<'a> {
    pub before: usize,
    pub letters: &'a [u8],
    pub frame: Vec<u8>,
}

/// "Each word is framed with # by itself." Two spaces in a row, and one at an end, make a word of no letters.
pub fn words(name: &[u8]) -> Vec<Word<'_>> {
    let mut before = 0;
    let mut words = Vec::new();
    for letters in name.split(|&byte| byte == SPACE) {
        let after = before + letters.len();
        let first = if broken(Break::NoStart) && before > 0 { SPACE } else { 0 };
        let last = if broken(Break::NoEnd) && after < name.len() { SPACE } else { 0 };
        words.push(Word { before, letters, frame: [&[first], letters, &[last]].concat() });
        before = after + 1;
    }
    words
}

/// What a listed name says: its phones, by no rules. None where it is not listed.
pub fn listed_name(list: &Exceptions, name: &[u8]) -> Option<Said> {
    if broken(Break::WordsAlone) && name.contains(&SPACE) {
        return None;
    }
    listed(list, name)
}

pub fn listed_word(list: &Exceptions, word: &Word) -> Option<Said> {
    if broken(Break::NameAlone) {
        return None;
    }
    listed(list, word.letters)
}

fn listed(list: &Exceptions, letters: &[u8]) -> Option<Said> {
    if broken(Break::Unlisted) {
        return None;
    }
    let phones = list.phones.get(letters)?.clone();
    // Its letters are not reached.
    let contested = if broken(Break::ListedContested) { letters.len() } else { 0 };
    Some(Said { phones, numbers: Vec::new(), contested })
}

/// The words in turn, from the list or else as `speak` says them, joined; then 4 and 5 for the whole name.
pub fn joined(
    list: &Exceptions,
    name: &[u8],
    phones_lent: usize,
    numbers_lent: usize,
    mut speak: impl FnMut(&Word) -> Answer<Said>,
) -> Answer<Said> {
    let mut said = Said::default();
    for word in words(name) {
        let known = listed_word(list, &word);
        let ends = known.is_some() && broken(Break::ListedEnds);
        match known {
            Some(known) => said.join(known),
            None => said.join(speak(&word)?),
        }
        if broken(Break::WordRoom) {
            said = said.within(phones_lent, numbers_lent)?;
        }
        if ends {
            break;
        }
    }
    said.within(phones_lent, numbers_lent)
}

/// Refusal 3 at position i of a word: its place is the position in the whole name.
pub fn no_fit<T>(word: &Word, i: usize) -> Answer<T> {
    let before = if broken(Break::WordPlace) { 0 } else { word.before };
    refuse(3, before + i)
}

/// Whether reading goes on at position i of a word of n letters.
pub fn reached(i: usize, n: usize) -> bool {
    if broken(Break::Early) {
        return i < n;
    }
    i <= n
}

pub fn plain(
    set: &Ruleset,
    list: &Exceptions,
    name: &[u8],
    phones_lent: usize,
    numbers_lent: usize,
) -> Answer<Said> {
    sound_name(name)?;
    if let Some(said) = listed_name(list, name) {
        return said.within(phones_lent, numbers_lent);
    }
    joined(list, name, phones_lent, numbers_lent, |word| plain_word(set, word))
}

fn plain_word(set: &Ruleset, word: &Word) -> Answer<Said> {
    let mut said = Said::default();
    let mut i = 1;
    while reached(i, word.letters.len()) {
        let Some((number, rule)) = first_fitting(set, &word.frame, i) else {
            return no_fit(word, i);
        };
        i += said.apply(*number, rule, fitting(set, &word.frame, i).count());
    }
    Ok(said)
}

fn first_fitting<'a>(set: &'a Ruleset, frame: &'a [u8], i: usize) -> Option<&'a (u16, Rule)> {
    let mut fitting = fitting(set, frame, i);
    if broken(Break::Later) {
        return fitting.next_back();
    }
    if broken(Break::Longest) {
        return fitting.max_by_key(|(_, rule)| rule.left().len() + rule.right_pattern().len());
    }
    fitting.next()
}

/// The rules that fit at position i, in order.
pub fn fitting<'a>(
    set: &'a Ruleset,
    frame: &'a [u8],
    i: usize,
) -> impl DoubleEndedIterator<Item = &'a (u16, Rule)> {
    set.rules.iter().filter(move |(_, rule)| rule.fits(&set.classes, frame, i))
}
