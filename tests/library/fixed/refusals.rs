//! The example that stands beside each refusal in the paper's table, and the orders it gives.

use super::{letters, Loaded, Spoken, SIX_RULES, SIX_SETS, SIX_WORDS};
use crate::lent::{self, Compiled, Lent, List, Room};
use crate::random::Random;
use crate::reference::image::{self, IMAGE};
use crate::reference::rule::Rule;
use crate::reference::ruleset::Ruleset;
use crate::reference::{file, refuse};
use crate::tally::Tally;

pub fn refusals(tally: &mut Tally, random: &mut Random) {
    short(tally, random);
    names(tally, random);
    edits(tally, random);
    rooms(tally, random);
    files(tally, random);
}

/// Every call on memory too short for a ruleset: 0 comes before all else, also where there is no list.
fn short(tally: &mut Tally, random: &mut Random) {
    let six = Loaded::new(tally, SIX_RULES, SIX_WORDS, SIX_SETS, random);
    let rule = Lent::new(&rule(&[]).0, random);
    let (good, bad) = (Lent::new(SIX_RULES, random), Lent::new(b"", random));
    let (name, names) = (Lent::new(&[0x40; 65], random), Lent::new(&[1, 5, 1, 5], random));
    let no_list = List::lent(&[], random);
    for (length, list) in [(0, &six.list), (7, &no_list), (8, &no_list), (IMAGE - 1, &six.list)] {
        let mut image = Lent::new(&six.image.contents()[..length], random);
        let mut room = Room::any(256, 64, random);
        lent::clear(tally, &mut image);
        lent::check(tally, &image);
        lent::add(tally, &mut image, &rule, 9);
        lent::drop(tally, &mut image, 9);
        lent::shift(tally, &mut image, 9, 9);
        lent::set_class(tally, &mut image, 0x40, &name);
        for text in [&good, &bad] {
            lent::read_file(tally, text, &mut image);
        }
        lent::write_file(tally, &image, &mut Lent::any(0, random));
        lent::build(tally, &image, &mut Compiled::any(0, 0, random));
        lent::read_name(tally, &image, list, &name, &mut room);
        lent::speak(tally, &image, list, &six.compiled, &name, &mut room);
        lent::speak_many(tally, &image, list, &six.compiled, &names, &mut room, &mut Lent::any(10, random));
    }
}

fn names(tally: &mut Tally, random: &mut Random) {
    let refused = Spoken::refused;
    let six = Loaded::new(tally, SIX_RULES, SIX_WORDS, SIX_SETS, random);
    let long_and_wrong = [0x40; 65];
    let cases: [(&[u8], usize, usize, Spoken); 9] = [
        (&[5, 0x40], 256, 64, refused(1, 1, 0)),
        (&[5, 0, 0x40], 256, 64, refused(1, 1, 0)),
        (&[5; 65], 256, 64, refused(2, 0, 0)),
        (&long_and_wrong, 256, 64, refused(2, 0, 0)),
        (&letters("nab"), 0, 0, refused(3, 2, 8)),
        (&letters("knee"), 1, 64, refused(4, 2, 10)),
        (&letters("knee"), 0, 0, refused(4, 2, 10)),
        (&letters("knee"), 2, 2, refused(5, 3, 10)),
        (&letters("knee"), 2, 0, refused(5, 3, 10)),
    ];
    for (name, phones, numbers, wanted) in cases {
        let said = six.speak(tally, name, phones, numbers, random);
        tally.equal("a refused name", said, wanted);
    }
    // Too few words, or no states, are no tables; the name is judged before them.
    let sets = six.compiled.sets.contents();
    let words = six.compiled.words.contents();
    let no_left = [&[0, 0, 0, 10], &words[4..]].concat();
    let no_right = [&[0, 0, 10, 0], &words[4..]].concat();
    let few = [&words[..0], &words[..1], &words[..3], &words[..4], &[0; 4], &words[..SIX_WORDS - 1]];
    for words in few.into_iter().chain([&no_left[..], &no_right]) {
        let compiled = Compiled::new(words, sets, random);
        let cases: [(&[u8], Spoken); 3] =
            [(&[5], refused(16, 0, 0)), (&[5, 0x40], refused(1, 1, 0)), (&[5; 65], refused(2, 0, 0))];
        for (name, wanted) in cases {
            let said = six.speak_by(tally, &compiled, name, (256, 64), random);
            tally.equal("no tables", said, wanted);
        }
    }
}

fn edits(tally: &mut Tally, random: &mut Random) {
    let good = Lent::new(&rule(&[5]).0, random);
    let bad = Lent::new(&rule(&[]).0, random);
    let mut empty = Lent::any(IMAGE, random);
    lent::clear(tally, &mut empty);
    lent::add(tally, &mut empty, &bad, 0);
    lent::add(tally, &mut empty, &bad, 1);
    lent::add(tally, &mut empty, &good, 1);
    lent::drop(tally, &mut empty, 0);
    lent::shift(tally, &mut empty, 1, 5);

    let rules = (1..=512).map(|number| (number, rule(&[5]))).collect();
    let full = Ruleset { last: 65_535, rules, ..Ruleset::default() };
    let mut few = full.clone();
    few.rules.truncate(6);
    for set in [full, few] {
        let mut image = Lent::new(&bytes(&set), random);
        for p in [0, set.rules.len(), set.rules.len() + 1] {
            lent::add(tally, &mut image, &bad, p);
            lent::add(tally, &mut image, &good, p);
        }
        lent::drop(tally, &mut image, 513);
        // Against the remaining list: the last place is one less than the count.
        lent::shift(tally, &mut image, 1, set.rules.len());
        lent::shift(tally, &mut image, 1, set.rules.len() - 1);
        lent::shift(tally, &mut image, 513, usize::MAX);
    }
    // Number 7, `last` 6.
    let none = Ruleset { last: 6, rules: vec![(7, rule(&[5]))], ..Ruleset::default() };
    let mut image = Lent::new(&bytes(&none), random);
    lent::check(tally, &image);
    lent::add(tally, &mut image, &bad, 9);
    lent::drop(tally, &mut image, 7);
}

fn rooms(tally: &mut Tally, random: &mut Random) {
    for (words, sets) in [(643, 80), (644, 79), (643, 79), (644, 80), (0, 0)] {
        Loaded::new(tally, SIX_RULES, words, sets, random);
    }
    let mut empty = Lent::any(IMAGE, random);
    lent::clear(tally, &mut empty);
    for lent_bytes in [0, 14, 15, 16] {
        lent::write_file(tally, &empty, &mut Lent::any(lent_bytes, random));
    }
}

/// The lines' starts as the paper counts them: from the file's own first byte.
fn files(tally: &mut Tally, random: &mut Random) {
    let head = |count: u8, last: u8| file::line(&[1, 1, 0, count, 0, last]);
    let e = |number: u8| file::line(&[2, 0, number, 0, 1, 0, 0, 5]);
    let long_rule = file::line(&[2, 0, 1, 0, 5, 0, 0, 5, 5, 5, 5, 5]);
    let cases: [(Vec<u8>, u8, usize); 14] = [
        (b"".to_vec(), 13, 0),
        (b"\n".to_vec(), 13, 0),
        (b"00\n".to_vec(), 13, 0),
        (file::line(&[1, 2, 0, 0, 0, 0]), 14, 0),
        (file::line(&[1, 1, 2, 1, 2, 1]), 14, 0),
        (head(1, 1), 13, 15),
        ([head(1, 1), e(1)].concat()[..15 + 18].to_vec(), 13, 15),
        ([head(1, 1), e(0)].concat(), 14, 15),
        ([head(1, 1), e(2)].concat(), 14, 15),
        ([head(1, 1), long_rule].concat(), 14, 15),
        ([head(2, 9), e(3), e(3)].concat(), 14, 15 + 19),
        ([head(1, 1), e(1), b"x".to_vec()].concat(), 14, 15 + 19),
        ([head(1, 1), e(1), e(1)].concat(), 14, 15 + 19),
        ([head(3, 2), e(2), e(1)].concat(), 13, 15 + 19 + 19),
    ];
    for (text, number, place) in cases {
        tally.equal("the reference's reading", file::read(&text).map(|_| ()), refuse(number, place));
        Loaded::new(tally, &text, SIX_WORDS, SIX_SETS, random);
    }
}

fn rule(target: &[u8]) -> Rule {
    Rule::new([&[], target, &[], &[]]).expect("the parts are short enough")
}

fn bytes(set: &Ruleset) -> Vec<u8> {
    let mut bytes = vec![0xA5; IMAGE];
    image::put(set, &mut bytes);
    bytes
}
