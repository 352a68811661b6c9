//! Contested letters, as document 02 tells them: how many rules fit, and in the walk how many places its two
//! sets share, whatever the tables are; with the counts written out here.

use super::{letters, Loaded, Spoken, SIX_RULES, SIX_SETS, SIX_WORDS};
use crate::lent::{self, Compiled, Lent, Room};
use crate::random::Random;
use crate::reference::file;
use crate::reference::rule::Rule;
use crate::reference::ruleset::Ruleset;
use crate::tally::Tally;

pub fn contested(tally: &mut Tally, random: &mut Random) {
    shared_places(tally, random);
    many(tally, random);
    far_apart(tally, random);
    most(tally, random);
}

/// Where the sets of the six rules' states begin: left inside a word and after #, right of n and of nk.
const INSIDE: usize = 0;
const AFTER_START: usize = 8;
const N: usize = 8 * (2 + 1);
const NK: usize = 8 * (2 + 2);

/// The tables of the six rules, with each of these places in these sets put in or taken out.
fn altered(six: &Loaded, changes: &[(usize, usize)], random: &mut Random) -> Compiled {
    let mut sets = six.compiled.sets.contents().to_vec();
    for (start, place) in changes {
        sets[start + place / 64] ^= 1 << (place % 64);
    }
    Compiled::new(six.compiled.words.contents(), &sets, random)
}

/// Every place that both sets hold counts: in any word, past the list, and of a rule that does not fit.
fn shared_places(tally: &mut Tally, random: &mut Random) {
    let six = Loaded::new(tally, SIX_RULES, SIX_WORDS, SIX_SETS, random);
    let n = |contested| Spoken::said(&[0x6E], &[6], 4, contested);
    let kn = |contested| Spoken::said(&[0x6E], &[1, 6], 6, contested);
    let kkn = |contested| Spoken::said(&[0x6B, 0x6B, 0x6E], &[2, 2, 6], 8, contested);
    let mut cases: Vec<(&str, Vec<(usize, usize)>, Spoken)> = vec![
        ("n", vec![], n(0)),
        ("n", vec![(N, 4)], Spoken::refused(16, 0, 0)),
        ("n", vec![(N, 5), (AFTER_START, 6), (N, 6)], Spoken::refused(16, 0, 0)),
        ("n", vec![(N, 5)], Spoken::refused(3, 1, 4)),
        ("kn", vec![], kn(1)),
        ("kn", vec![(NK, 2)], kn(1)),
        ("kn", vec![(NK, 1)], kn(0)),
        ("kn", vec![(NK, 0)], Spoken::said(&[0x6B, 0x6E], &[2, 6], 6, 0)),
        ("kkn", vec![], kkn(0)),
        ("kkn", vec![(NK, 5)], kkn(1)),
        ("kkn", vec![(INSIDE, 300), (NK, 300)], kkn(1)),
        ("kkn", vec![(INSIDE, 0)], Spoken::refused(16, 0, 0)),
    ];
    for place in [6, 63, 64, 127, 128, 300, 448, 511] {
        cases.push(("n", vec![(AFTER_START, place), (N, place)], n(1)));
        cases.push(("n", vec![(AFTER_START, place)], n(0)));
        cases.push(("n", vec![(N, place)], n(0)));
    }
    for (name, changes, wanted) in cases {
        let compiled = altered(&six, &changes, random);
        let said = six.speak_by(tally, &compiled, &letters(name), (9, 9), random);
        tally.equal(name, said, wanted);
    }
}

/// The count among many: by the tables that are lent, 0 with any refusal, each name its own.
fn many(tally: &mut Tally, random: &mut Random) {
    let six = Loaded::new(tally, SIX_RULES, SIX_WORDS, SIX_SETS, random);
    let compiled = altered(&six, &[(AFTER_START, 511), (N, 511)], random);
    let mut names = Vec::new();
    for name in ["n", "knee", "nab", "eee eee", "kkn", "knee"] {
        names.push(name.len() as u8);
        names.extend(letters(name));
    }
    let (mut room, mut replies) = (Room::any(8, 11, random), Lent::any(30, random));
    let names = Lent::new(&names, random);
    lent::speak_many(tally, &six.image, &six.list, &compiled, &names, &mut room, &mut replies);
    let wanted = [
        [255, 1, 1, 4, 1],
        [255, 2, 3, 10, 2],
        [3, 2, 0, 8, 0],
        [255, 2, 4, 16, 4],
        [255, 3, 3, 8, 0],
        [4, 2, 0, 10, 0],
    ];
    tally.equal("replies", replies.contents(), wanted.as_flattened());
}

/// Two rules for a letter of its own at each of these pairs of places, within a word of the sets and in two.
fn far_apart(tally: &mut Tally, random: &mut Random) {
    let pairs = [(0, 1), (2, 63), (62, 64), (3, 65), (4, 128), (5, 511), (447, 448), (509, 510)];
    let filler = 0x3E;
    let mut targets = [filler; 512];
    for ((first, second), letter) in pairs.into_iter().zip(1..) {
        (targets[first], targets[second]) = (letter, letter);
    }
    let rules = targets.into_iter().zip(1..).map(|(target, number)| {
        (number, Rule::new([&[], &[target], &[], &[target]]).expect("the parts are short enough"))
    });
    let set = Ruleset { last: 512, rules: rules.collect(), ..Ruleset::default() };
    // The right strings are the empty one and nine letters.
    let loaded = Loaded::new(tally, &file::write(&set), 4 + 64 * 11, 8 * 11, random);
    for ((first, _), letter) in pairs.into_iter().zip(1..) {
        let said = loaded.speak(tally, &[letter], 1, 1, random);
        tally.equal("two rules", said, Spoken::said(&[letter], &[first as u16 + 1], 4, 1));
    }
    let said = loaded.speak(tally, &[filler], 1, 1, random);
    tally.equal("496 rules", said, Spoken::said(&[filler], &[7], 4, 1));
}

/// 512 rules fit each of 64 letters; with a phone or a number too few lent there is no count.
fn most(tally: &mut Tally, random: &mut Random) {
    let rule = Rule::new([&[], &[5], &[], &[0x65]]).expect("the parts are short enough");
    let rules = (1..=512).map(|number| (number, rule)).collect();
    let set = Ruleset { last: 512, rules, ..Ruleset::default() };
    let loaded = Loaded::new(tally, &file::write(&set), 4 + 64 * 3, 8 * 3, random);
    let said = loaded.speak(tally, &[5; 64], 64, 64, random);
    tally.equal("64 letters", said, Spoken::said(&[0x65; 64], &[1; 64], 130, 64));
    for (phones, numbers) in [(63, 64), (64, 63)] {
        let name = Lent::new(&[5; 64], random);
        let mut room = Room::any(phones, numbers, random);
        let (heard, _) = lent::speak(tally, &loaded.image, &loaded.list, &loaded.compiled, &name, &mut room);
        let read = lent::read_name(tally, &loaded.image, &loaded.list, &name, &mut room);
        tally.equal("no room, no count", (heard.contested, read.contested), (0, 0));
    }
}
