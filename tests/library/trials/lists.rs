//! Exceptions lists: random changes with much sharing, and names spoken by them.

use super::lending;
use crate::lent::{self, lists, Compiled, Lent, List, Room};
use crate::make::tables::{built, stale};
use crate::make::{lists as make, rules};
use crate::random::Random;
use crate::reference::exceptions::Exceptions;
use crate::reference::image::{put, IMAGE};
use crate::reference::many::REPLY;
use crate::reference::reading::plain;
use crate::reference::rule::Rule;
use crate::reference::ruleset::Ruleset;
use crate::tally::Tally;

/// Changes of one list in any order, few letters; its names are spoken meanwhile.
pub fn changes(tally: &mut Tally, random: &mut Random) {
    let letters = few_letters(random);
    let speakers = Speakers::new(tally, &letters, random);
    let mut list = List::empty(tally, random);
    for _ in 0..random.within(1, 60) {
        one_change(tally, &mut list, &letters, random);
        lists::check(tally, &list);
        if random.one_in(12) {
            some_read_out(tally, &list, random);
        }
        if random.one_in(12) {
            speakers.speak(tally, &list, random);
        }
    }
    some_read_out(tally, &list, random);
    speakers.speak(tally, &list, random);
    if random.one_in(4) {
        lists::clear(tally, &mut list);
        lists::check(tally, &list);
    }
}

pub fn few_letters(random: &mut Random) -> Vec<u8> {
    let mut letters = rules::letters(random);
    letters.truncate(random.within(1, 4));
    letters
}

pub fn one_change(tally: &mut Tally, list: &mut List, letters: &[u8], random: &mut Random) {
    let none = Exceptions::default();
    let name = make::name(list.held().unwrap_or(&none), letters, random);
    let name = Lent::new(&name, random);
    if random.below(8) < 5 {
        lists::add(tally, list, &name, &Lent::new(&make::phones(random), random));
    } else {
        lists::remove(tally, list, &name);
    }
}

pub fn some_read_out(tally: &mut Tally, list: &List, random: &mut Random) {
    let needed = list.held().map_or(10, |held| held.read_out().len());
    lists::read_out(tally, list, &mut Lent::any(lending(needed, random), random));
}

/// A ruleset with a rule for each letter but the first, and others for the last at the ends of a word; its
/// tables, and the same with another edit count.
pub struct Speakers {
    letters: Vec<u8>,
    set: Ruleset,
    image: Lent<u8>,
    compiled: Compiled,
    stale: Compiled,
}

impl Speakers {
    pub fn new(tally: &mut Tally, letters: &[u8], random: &mut Random) -> Speakers {
        let last = &letters[letters.len() - 1..];
        let mut parts: Vec<[&[u8]; 4]> = vec![[&[], last, &[0], &[]], [&[0], last, &[], &[0x71]]];
        parts.extend(letters[1..].chunks(1).map(|letter| [&[], letter, &[], &[0x70]]));
        let rules = parts.into_iter().map(|parts| Rule::new(parts).expect("the parts are short"));
        let rules: Vec<(u16, Rule)> = (1..).zip(rules).collect();
        let (last, edits) = (rules.len() as u16, rules::edits(random));
        let set = Ruleset { last, rules, edits, ..Ruleset::default() };
        let mut bytes = vec![0; IMAGE];
        put(&set, &mut bytes);
        let image = Lent::new(&bytes, random);
        let (mut words, sets) = built(&set);
        let mut compiled = Compiled::any(words.len(), sets.len(), random);
        lent::build(tally, &image, &mut compiled);
        stale(&mut words, &set, random);
        let stale = Compiled::new(&words, &sets, random);
        Speakers { letters: letters.to_vec(), set, image, compiled, stale }
    }

    /// A name by all three calls, with about as much room as its phones need.
    pub fn speak(&self, tally: &mut Tally, list: &List, random: &mut Random) {
        let none = Exceptions::default();
        let held = list.held().unwrap_or(&none);
        let name = make::spoken(held, &self.letters, random);
        let said = plain(&self.set, held, &name, usize::MAX, usize::MAX);
        let needed = said.map_or(name.len(), |said| said.phones.len());
        let mut many = Vec::new();
        for name in [&name, &make::spoken(held, &self.letters, random), &name] {
            many.push(name.len() as u8);
            many.extend(name);
        }
        let room = |random: &mut Random| Room::any(lending(needed, random), 64, random);
        let name = Lent::new(&name, random);
        lent::read_name(tally, &self.image, list, &name, &mut room(random));
        lent::speak(tally, &self.image, list, &self.compiled, &name, &mut room(random));
        // Without tables, or by stale ones, a listed name and one of listed words are spoken all the same.
        for tables in [&Compiled::any(0, 0, random), &self.stale] {
            lent::speak(tally, &self.image, list, tables, &name, &mut room(random));
        }
        let (mut room, mut replies) = (Room::any(2 * needed, 64, random), Lent::any(3 * REPLY, random));
        let many = Lent::new(&many, random);
        lent::speak_many(tally, &self.image, list, &self.compiled, &many, &mut room, &mut replies);
    }
}
