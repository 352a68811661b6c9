//! The exceptions list of document 02: its refusals in their orders, and its bounds, with the answers
//! written out here, so that they hold without the reference.

use super::{letters, Loaded, Spoken, SIX_RULES, SIX_SETS, SIX_WORDS};
use crate::lent::{self, lists as calls, Compiled, Lent, List, Room};
use crate::random::Random;
use crate::reference::broken::at_bounds;
use crate::reference::exceptions::{Exceptions, LIST, READ_OUT};
use crate::reference::Answer;
use crate::tally::Tally;

pub fn lists(tally: &mut Tally, random: &mut Random) {
    state_counts(tally);
    refusals(tally, random);
    no_list(tally, random);
    spoken(tally, random);
    many(tally, random);
    if at_bounds() {
        most_names(tally, random);
        most_states(tally, random);
        longest_read_out(tally, random);
    }
}

/// The reference's own count, by hand: the endings that differ, and the start.
fn state_counts(tally: &mut Tally) {
    let cases: [(&str, usize); 12] = [
        ("", 1),
        ("a", 2),
        ("ab", 3),
        ("a ab", 3),
        ("ab cb", 3),
        ("ab b", 3),
        ("ab ac", 3),
        ("aa ab ba", 4),
        ("aa ab ba bb", 3),
        ("aab bab", 4),
        ("a b ab ba", 4),
        ("abc adc bc", 4),
    ];
    for (names, states) in cases {
        let mut list = Exceptions::default();
        for name in names.split_whitespace() {
            list.phones.insert(letters(name), vec![0x61]);
        }
        tally.equal(names, list.states(), states);
    }
}

/// Adds by the library and by the reference; both must give this answer.
fn add(tally: &mut Tally, list: &mut List, name: &[u8], phones: &[u8], wanted: u8, random: &mut Random) {
    let by_reference = |held: &Exceptions| held.clone().add(name, phones);
    let code = code(list.held().map(by_reference));
    tally.equal("the reference's addition", code, wanted);
    calls::add(tally, list, &Lent::new(name, random), &Lent::new(phones, random));
}

fn remove(tally: &mut Tally, list: &mut List, name: &[u8], wanted: u8, random: &mut Random) {
    let code = code(list.held().map(|held| held.clone().remove(name)));
    tally.equal("the reference's removal", code, wanted);
    calls::remove(tally, list, &Lent::new(name, random));
}

fn code(answer: Option<Answer<()>>) -> u8 {
    match answer {
        None => 17,
        Some(Ok(())) => 255,
        Some(Err(refused)) => refused.number,
    }
}

fn refusals(tally: &mut Tally, random: &mut Random) {
    let mut list = List::empty(tally, random);
    let knee = letters("knee");
    let additions: [(&[u8], &[u8], u8); 14] = [
        (&[0x40; 65], &[], 2),
        (&[5; 65], &[0x61], 2),
        (&[5, 0x40, 0], &[], 1),
        (&[0], &[0x61], 1),
        (&[], &[0x61], 17),
        (&[], &[], 17),
        (&knee, &[], 17),
        (&knee, &[0x61; 65], 17),
        (&knee, &[0x61, 0], 17),
        (&knee, &[0x61], 255),
        (&knee, &[0xFF; 64], 255),
        (&[0x3F; 64], &[0xFF; 64], 255),
        (&[1; 64], &[1], 255),
        (&knee[..3], &[1], 255),
    ];
    for (name, phones, wanted) in additions {
        add(tally, &mut list, name, phones, wanted, random);
        calls::check(tally, &list);
    }
    let removals: [(&[u8], u8); 9] = [
        (&[0x40; 65], 2),
        (&[5, 0], 1),
        (&[], 18),
        (&knee[..2], 18),
        (&[1; 63], 18),
        (&knee, 255),
        (&knee, 18),
        (&[0x3F; 64], 255),
        (&[1; 64], 255),
    ];
    for (name, wanted) in removals {
        remove(tally, &mut list, name, wanted, random);
        calls::check(tally, &list);
    }
    calls::add_its_letters(tally, &mut list, &Lent::new(&knee, random));
    for room in [0, 15, 16, 17] {
        calls::read_out(tally, &list, &mut Lent::any(room, random));
    }
    let mut out = Lent::any(16, random);
    calls::read_out(tally, &list, &mut out);
    tally.equal("a read-out", out.contents(), &[3, 11, 14, 5, 1, 1, 4, 11, 14, 5, 5, 4, 11, 14, 5, 5]);
}

/// Memory too short for a list.
fn no_list(tally: &mut Tally, random: &mut Random) {
    let six = Loaded::new(tally, SIX_RULES, SIX_WORDS, SIX_SETS, random);
    for length in [0, 1, LIST - 1] {
        let mut list = List::lent(&six.list.words()[..length], random);
        tally.equal("too short a list", list.held().is_none(), true);
        calls::clear(tally, &mut list);
        refused_by_all(tally, &six, &mut list, random);
    }
}

/// Every call but `list_clear` on memory that is no list: 17 comes next after 0.
pub fn refused_by_all(tally: &mut Tally, six: &Loaded, list: &mut List, random: &mut Random) {
    let (name, names) = (Lent::new(&[0x40; 65], random), Lent::new(&[1, 5, 1, 5], random));
    calls::check(tally, list);
    calls::add(tally, list, &name, &name);
    calls::remove(tally, list, &name);
    calls::read_out(tally, list, &mut Lent::any(0, random));
    let mut room = Room::any(256, 64, random);
    lent::read_name(tally, &six.image, list, &name, &mut room);
    lent::speak(tally, &six.image, list, &Compiled::any(0, 0, random), &name, &mut room);
    let mut replies = Lent::any(10, random);
    lent::speak_many(tally, &six.image, list, &six.compiled, &names, &mut room, &mut replies);
}

/// A listed name by walk and plain reading: no rules, no steps, and of the later refusals only 4.
fn spoken(tally: &mut Tally, random: &mut Random) {
    let mut six = Loaded::new(tally, SIX_RULES, SIX_WORDS, SIX_SETS, random);
    for name in ["knee", "nab", "e"] {
        six.list(tally, name, &[1, 2, 3], random);
    }
    let (said, refused) = (Spoken::said, Spoken::refused);
    let cases: [(&str, usize, usize, Spoken); 9] = [
        ("knee", 3, 0, said(&[1, 2, 3], &[], 0, 0)),
        ("knee", 2, 9, refused(4, 3, 0)),
        ("knee", 0, 0, refused(4, 3, 0)),
        ("nab", 9, 9, said(&[1, 2, 3], &[], 0, 0)),
        ("e", 9, 9, said(&[1, 2, 3], &[], 0, 0)),
        ("kne", 9, 9, said(&[0x6E], &[1, 6, 3], 8, 2)),
        ("kneek", 9, 9, said(&[0x6E, 0x69, 0x6B], &[1, 6, 4, 2], 12, 2)),
        ("", 0, 0, said(&[], &[], 2, 0)),
        ("na", 0, 0, refused(3, 2, 6)),
    ];
    for (name, phones, numbers, wanted) in cases {
        let heard = six.speak(tally, &letters(name), phones, numbers, random);
        tally.equal("with a list", heard, wanted);
    }
    // The list comes before the tables' refusal, the ruleset's before the list.
    let name = Lent::new(&letters("knee"), random);
    let mut room = Room::any(3, 0, random);
    let none = Compiled::any(0, 0, random);
    let (heard, steps) = lent::speak(tally, &six.image, &six.list, &none, &name, &mut room);
    tally.equal("no tables", Spoken::new(heard, steps, &room), said(&[1, 2, 3], &[], 0, 0));
    let no_rules = Lent::new(&[], random);
    let heard = lent::read_name(tally, &no_rules, &six.list, &name, &mut room);
    tally.equal("no ruleset", heard.code, 0);
}

/// Listed names among others: their phones stand in the row, they take no numbers and no steps.
fn many(tally: &mut Tally, random: &mut Random) {
    let mut six = Loaded::new(tally, SIX_RULES, SIX_WORDS, SIX_SETS, random);
    six.list(tally, "nab", &[7, 8, 9], random);
    let mut names = Vec::new();
    for name in ["knee", "nab", "e", "nab", "k"] {
        names.push(name.len() as u8);
        names.extend(letters(name));
    }
    let (mut room, mut replies) = (Room::any(7, 9, random), Lent::any(25, random));
    let names = Lent::new(&names, random);
    lent::speak_many(tally, &six.image, &six.list, &six.compiled, &names, &mut room, &mut replies);
    let wanted =
        [[255, 2, 3, 10, 2], [255, 3, 0, 0, 0], [255, 0, 1, 4, 1], [4, 3, 0, 0, 0], [255, 1, 1, 4, 0]];
    tally.equal("replies", replies.contents(), wanted.as_flattened());
    tally.equal("their phones", &room.contents().0[..6], &[0x6E, 0x69, 7, 8, 9, 0x6B]);
    tally.equal("their numbers", &room.contents().1[..5], &[1, 6, 4, 3, 2]);
}

/// 1,000 names: none can be added, all can be replaced.
fn most_names(tally: &mut Tally, random: &mut Random) {
    let mut list = List::empty(tally, random);
    let names: Vec<[u8; 2]> = (0..1_000).map(|k| [1 + (k / 32) as u8, 1 + (k % 32) as u8]).collect();
    for name in &names {
        calls::add(tally, &mut list, &Lent::new(name, random), &Lent::new(&[0x61], random));
    }
    calls::check(tally, &list);
    let held = list.held().cloned().unwrap_or_default();
    tally.equal("1,000 names", (held.phones.len(), held.states()), (1_000, 4));
    add(tally, &mut list, &[1, 1, 1], &[0x61], 19, random);
    add(tally, &mut list, &[1, 1, 1], &[], 17, random);
    add(tally, &mut list, &[], &[0x61], 17, random);
    add(tally, &mut list, &[1, 1], &[0x62], 255, random);
    calls::check(tally, &list);
    remove(tally, &mut list, &[1, 1, 1], 18, random);
    remove(tally, &mut list, &[1, 1], 255, random);
    add(tally, &mut list, &[1, 1, 1], &[0x61], 255, random);
    add(tally, &mut list, &[1, 1], &[0x61], 19, random);
    calls::check(tally, &list);
    for room in [5_000, 5_001] {
        calls::read_out(tally, &list, &mut Lent::any(room, random));
    }
    remove(tally, &mut list, &[1, 1, 1], 255, random);
    for name in &names[1..] {
        calls::remove(tally, &mut list, &Lent::new(name, random));
    }
    calls::check(tally, &list);
    calls::read_out(tally, &list, &mut Lent::any(0, random));
}

/// 4,096 states: 61 names of 64 letters have 64 each, three more 63, and four of two letters share two.
/// One state more by adding, by other phones and by removing.
fn most_states(tally: &mut Tally, random: &mut Random) {
    let mut list = List::empty(tally, random);
    let shared: [[u8; 2]; 4] = [[62, 1], [62, 2], [63, 1], [63, 2]];
    for name in shared {
        add(tally, &mut list, &name, &[0x61], 255, random);
    }
    for k in 1..=61 {
        add(tally, &mut list, &[k; 64], &[k], 255, random);
    }
    for k in 1..=3 {
        let mut name = [k + 1; 64];
        name[0] = k;
        add(tally, &mut list, &name, &[0x40 + k], 255, random);
    }
    calls::check(tally, &list);
    tally.equal("the most states", list.held().map(Exceptions::states), Some(4_096));
    let tries = |tally: &mut Tally, list: &mut List, limit: u8, random: &mut Random| {
        remove(tally, list, &[62, 1], limit, random);
        add(tally, list, &[62, 1], &[0x62], limit, random);
        add(tally, list, &[62, 1], &[0x61], 255, random);
        add(tally, list, &[63, 3], &[0x7F], limit, random);
        remove(tally, list, &[9, 9], 18, random);
        add(tally, list, &[9, 9], &[0x7F], 255, random);
        remove(tally, list, &[9, 9], 255, random);
        calls::check(tally, list);
    };
    tries(tally, &mut list, 19, random);
    remove(tally, &mut list, &[1; 64], 255, random);
    tries(tally, &mut list, 255, random);
    add(tally, &mut list, &[1; 64], &[1], 19, random);
    calls::read_out(tally, &list, &mut Lent::any(READ_OUT, random));
}

/// 1,000 names of 64 letters with 64 phones each.
fn longest_read_out(tally: &mut Tally, random: &mut Random) {
    let mut list = List::empty(tally, random);
    for k in 0..1_000u16 {
        let mut name = [0x3F; 64];
        (0..10).for_each(|bit| name[54 + bit] = 1 + (k >> bit & 1) as u8);
        calls::add(tally, &mut list, &Lent::new(&name, random), &Lent::new(&[0xFF; 64], random));
    }
    calls::check(tally, &list);
    let needed = list.held().map(|held| held.read_out().len());
    tally.equal("the longest read-out", needed, Some(130_000));
    for room in [READ_OUT - 1, READ_OUT, READ_OUT + 1] {
        calls::read_out(tally, &list, &mut Lent::any(room, random));
    }
}
