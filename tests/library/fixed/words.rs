//! Names of several words, as document 02 tells them, with the answers written out here, so that they hold
//! without the reference.

use super::{letters, Loaded, Spoken, SIX_RULES, SIX_SETS, SIX_WORDS};
use crate::lent::{self, Compiled, Lent, Room};
use crate::random::Random;
use crate::reference::file::{self, line};
use crate::reference::image::{put, IMAGE};
use crate::reference::refuse;
use crate::reference::rule::{Rule, SPACE};
use crate::reference::ruleset::Ruleset;
use crate::tally::Tally;

pub fn words(tally: &mut Tally, random: &mut Random) {
    boundaries(tally, random);
    refusals(tally, random);
    listed(tally, random);
    unusable_tables(tally, random);
    most_phones(tally, random);
    many(tally, random);
    rules(tally, random);
}

/// Each word has its own boundaries: e is silent before a space, k before n after one. Words of no letters
/// take two steps each.
fn boundaries(tally: &mut Tally, random: &mut Random) {
    let six = Loaded::new(tally, SIX_RULES, SIX_WORDS, SIX_SETS, random);
    let cases: [(&str, &[u8], &[u16], usize); 12] = [
        ("eke knee", &[0x65, 0x6B, 0x6E, 0x69], &[5, 2, 3, 1, 6, 4], 3),
        ("e e", &[], &[3, 3], 2),
        ("ee ee", &[0x69, 0x69], &[4, 4], 2),
        ("e kn", &[0x6E], &[3, 1, 6], 2),
        ("ke n", &[0x6B, 0x6E], &[2, 3, 6], 1),
        ("", &[], &[], 0),
        (" ", &[], &[], 0),
        ("  ", &[], &[], 0),
        (" knee", &[0x6E, 0x69], &[1, 6, 4], 2),
        ("knee ", &[0x6E, 0x69], &[1, 6, 4], 2),
        ("n  kn", &[0x6E, 0x6E], &[6, 1, 6], 1),
        ("e e e e e e e e e e e e e e e e e e e e e e e e e e e e e e e e", &[], &[3; 32], 32),
    ];
    for (name, phones, numbers, contested) in cases {
        let said = six.speak(tally, &letters(name), 256, 64, random);
        tally.equal(name, said, Spoken::said(phones, numbers, 2 * name.len() + 2, contested));
    }
    let said = six.speak(tally, &[SPACE; 64], 0, 0, random);
    tally.equal("64 spaces", said, Spoken::said(&[], &[], 130, 0));
}

/// The place of 3 is a position of the whole name; 4 and 5 are for the whole name, after all its letters.
fn refusals(tally: &mut Tally, random: &mut Random) {
    let six = Loaded::new(tally, SIX_RULES, SIX_WORDS, SIX_SETS, random);
    let cases: [(&str, usize, usize, Spoken); 9] = [
        ("knee nab", 256, 64, Spoken::refused(3, 7, 18)),
        ("nab nab", 256, 64, Spoken::refused(3, 2, 16)),
        (" a", 256, 64, Spoken::refused(3, 2, 6)),
        ("  nab ", 256, 64, Spoken::refused(3, 4, 14)),
        ("knee a", 0, 0, Spoken::refused(3, 6, 14)),
        ("knee knee", 3, 0, Spoken::refused(4, 4, 20)),
        ("knee knee knee", 2, 64, Spoken::refused(4, 6, 30)),
        ("knee knee", 4, 5, Spoken::refused(5, 6, 20)),
        ("knee e knee", 4, 3, Spoken::refused(5, 7, 24)),
    ];
    for (name, phones, numbers, wanted) in cases {
        let heard = six.speak(tally, &letters(name), phones, numbers, random);
        tally.equal(name, heard, wanted);
    }
    let heard = six.speak(tally, &[SPACE; 65], 256, 64, random);
    tally.equal("65 spaces", heard, Spoken::refused(2, 0, 0));
    let heard = six.speak(tally, &[SPACE, 0x40], 256, 64, random);
    tally.equal("a space and 40", heard, Spoken::refused(1, 1, 0));
}

/// Listed words amid others, a listed name before its words, and the rooms: a listed word takes no steps and
/// no numbers, and no run of several words is looked for.
fn listed(tally: &mut Tally, random: &mut Random) {
    let mut six = Loaded::new(tally, SIX_RULES, SIX_WORDS, SIX_SETS, random);
    let entries: [(&str, &[u8]); 6] =
        [("knee", &[1, 2]), ("eke nab", &[3]), ("e ", &[4]), ("ab", &[5]), ("ab knee ab", &[6]), (" ", &[7])];
    for (name, phones) in entries {
        six.list(tally, name, phones, random);
    }
    let (said, refused) = (Spoken::said, Spoken::refused);
    let cases: [(&str, usize, usize, Spoken); 19] = [
        ("eke knee eke", 6, 6, said(&[0x65, 0x6B, 1, 2, 0x65, 0x6B], &[5, 2, 3, 5, 2, 3], 16, 2)),
        ("knee knee", 4, 0, said(&[1, 2, 1, 2], &[], 0, 0)),
        ("knee knee", 3, 0, refused(4, 4, 0)),
        ("eke nab", 1, 0, said(&[3], &[], 0, 0)),
        ("eke nab", 0, 9, refused(4, 1, 0)),
        ("ab knee", 3, 0, said(&[5, 1, 2], &[], 0, 0)),
        ("ab knee ab", 1, 0, said(&[6], &[], 0, 0)),
        ("knee eke nab", 9, 9, refused(3, 11, 16)),
        ("eke nab knee", 9, 9, refused(3, 6, 16)),
        ("e ", 1, 0, said(&[4], &[], 0, 0)),
        ("e  ", 0, 1, said(&[], &[3], 8, 1)),
        (" ", 1, 0, said(&[7], &[], 0, 0)),
        ("  ", 0, 0, said(&[], &[], 6, 0)),
        (" knee", 2, 0, said(&[1, 2], &[], 2, 0)),
        ("knee ", 2, 0, said(&[1, 2], &[], 2, 0)),
        ("knee n", 2, 1, refused(4, 3, 4)),
        ("knee n", 3, 0, refused(5, 1, 4)),
        ("ab nab", 0, 0, refused(3, 5, 8)),
        ("knee  knee", 4, 0, said(&[1, 2, 1, 2], &[], 2, 0)),
    ];
    for (name, phones, numbers, wanted) in cases {
        let heard = six.speak(tally, &letters(name), phones, numbers, random);
        tally.equal(name, heard, wanted);
    }
}

/// Tables that are none, and tables that a word starting with z leaves: judged only where a word is not
/// listed, and by all passes before the first letter.
fn unusable_tables(tally: &mut Tally, random: &mut Random) {
    let mut six = Loaded::new(tally, SIX_RULES, SIX_WORDS, SIX_SETS, random);
    six.list(tally, "knee", &[1, 2], random);
    six.list(tally, "z", &[3], random);
    let (words, sets) = (six.compiled.words.contents(), six.compiled.sets.contents());
    let mut after_start = words.to_vec();
    after_start[4 + 64 + 26] = 2;
    let none = Compiled::new(&words[..1], sets, random);
    let leaves = Compiled::new(&after_start, sets, random);
    let (said, refused) = (Spoken::said, Spoken::refused);
    let cases: [(&Compiled, &str, usize, Spoken); 10] = [
        (&none, "knee z", 3, said(&[1, 2, 3], &[], 0, 0)),
        (&none, "knee z", 2, refused(4, 3, 0)),
        (&none, "knee ", 2, refused(16, 0, 0)),
        (&none, "knee e", 2, refused(16, 0, 0)),
        (&none, " ", 2, refused(16, 0, 0)),
        (&leaves, "z knee", 3, said(&[3, 1, 2], &[], 0, 0)),
        (&leaves, "z e z", 2, said(&[3, 3], &[3], 4, 1)),
        (&leaves, "nab zz", 9, refused(16, 0, 0)),
        (&leaves, "nab nz", 9, refused(3, 2, 14)),
        (&leaves, "e zz", 0, refused(16, 0, 0)),
    ];
    for (compiled, name, phones, wanted) in cases {
        let said = six.speak_by(tally, compiled, &letters(name), (phones, 64), random);
        tally.equal(name, said, wanted);
    }
}

/// 32 listed words of one letter, 64 phones each: all that one name can give.
fn most_phones(tally: &mut Tally, random: &mut Random) {
    let mut six = Loaded::new(tally, SIX_RULES, SIX_WORDS, SIX_SETS, random);
    six.list(tally, "a", &[0xFF; 64], random);
    let name = letters(&["a"; 32].join(" "));
    let said = six.speak(tally, &name, 2_048, 0, random);
    tally.equal("32 listed words", said, Spoken::said(&[0xFF; 2_048], &[], 0, 0));
    let said = six.speak(tally, &name, 2_047, 0, random);
    tally.equal("a phone too few", said, Spoken::refused(4, 2_048, 0));
}

/// Names of several words among others in one call.
fn many(tally: &mut Tally, random: &mut Random) {
    let mut six = Loaded::new(tally, SIX_RULES, SIX_WORDS, SIX_SETS, random);
    six.list(tally, "nab", &[7, 8, 9], random);
    let mut names = Vec::new();
    for name in ["e nab", "nab nab", "k a", " ", "knee nab", "nab k"] {
        names.push(name.len() as u8);
        names.extend(letters(name));
    }
    let (mut room, mut replies) = (Room::any(13, 2, random), Lent::any(30, random));
    let names = Lent::new(&names, random);
    lent::speak_many(tally, &six.image, &six.list, &six.compiled, &names, &mut room, &mut replies);
    let wanted = [
        [255, 3, 1, 4, 1],
        [255, 6, 0, 0, 0],
        [3, 3, 0, 8, 0],
        [255, 0, 0, 4, 0],
        [4, 5, 0, 10, 0],
        [255, 4, 1, 4, 0],
    ];
    tally.equal("replies", replies.contents(), wanted.as_flattened());
    tally.equal("phones", room.contents().0, &[7, 8, 9, 7, 8, 9, 7, 8, 9, 7, 8, 9, 0x6B]);
    tally.equal("numbers", room.contents().1, &[3, 2]);
}

/// 3F in a rule: 6 where it is added, 14 in a file, 0 in a ruleset handed in. 3E is the last letter.
fn rules(tally: &mut Tally, random: &mut Random) {
    let parts: [[&[u8]; 4]; 4] = [
        [&[SPACE], &[5], &[], &[]],
        [&[], &[SPACE], &[], &[]],
        [&[], &[5], &[SPACE], &[]],
        [&[0, SPACE], &[5, SPACE], &[SPACE, 0], &[SPACE]],
    ];
    let mut image = Lent::any(IMAGE, random);
    lent::clear(tally, &mut image);
    for parts in parts {
        let rule = Rule::new(parts).expect("the parts are short enough");
        lent::add(tally, &mut image, &Lent::new(&rule.0, random), 0);
        lent::add(tally, &mut image, &Lent::new(&rule.0, random), 9);
        let set = Ruleset { last: 1, rules: vec![(1, rule)], ..Ruleset::default() };
        let text = file::write(&set);
        tally.equal("the reference's reading", file::read(&text).map(|_| ()), refuse(14, 15));
        lent::read_file(tally, &Lent::new(&text, random), &mut image);
        let mut handed_in = vec![0; IMAGE];
        put(&set, &mut handed_in);
        let mut handed_in = Lent::new(&handed_in, random);
        lent::check(tally, &handed_in);
        lent::drop(tally, &mut handed_in, 1);
    }
    let last = Rule::new([&[0x3E], &[0x3E], &[0x3E], &[SPACE]]).expect("the parts are short enough");
    lent::add(tally, &mut image, &Lent::new(&last.0, random), 0);
    let text = [line(&[1, 1, 0, 1, 0, 1]), line(&[2, 0, 1, 0, 1, 0, 1, 0x3E, SPACE])];
    let loaded = Loaded::new(tally, &text.concat(), 200, 30, random);
    let said = loaded.speak(tally, &[0x3E, SPACE, 0x3E], 2, 2, random);
    tally.equal("the last letter", said, Spoken::said(&[SPACE; 2], &[1, 1], 8, 0));
}
