//! "Ways to be wrong that pass a short trial", and the reviewer's trials that show from outside: each
//! with the answer written out here, so that it holds without the reference.

use super::{letters, Loaded, Spoken, SIX_RULES, SIX_SETS, SIX_WORDS};
use crate::lent::{self, Compiled, Lent, Room};
use crate::random::Random;
use crate::reference::file::line;
use crate::reference::image::{last, HEAD, IMAGE, NUMBER, SLOT};
use crate::reference::rule::{RULE, STARTS};
use crate::tally::Tally;

pub fn wrong(tally: &mut Tally, random: &mut Random) {
    first_not_longest(tally, random);
    ends_inside(tally, random);
    last_after_drop(tally, random);
    words_decide(tally, random);
    name_inside_image(tally, random);
}

/// Rule [e] before rule [ee]: the first fits everywhere, and reading stops only after the last letter.
/// It moves on by its target alone although its right context is longer.
fn first_not_longest(tally: &mut Tally, random: &mut Random) {
    let text = [
        line(&[1, 1, 0, 3, 0, 3]),
        line(&[2, 0, 1, 0, 1, 2, 1, 5, 5, 5, 0x61]),
        line(&[2, 0, 2, 0, 1, 0, 1, 5, 0x62]),
        line(&[2, 0, 3, 0, 2, 0, 1, 5, 5, 0x63]),
    ];
    let loaded = Loaded::new(tally, &text.concat(), 4 + 64 * 5, 8 * 5, random);
    let said = loaded.speak(tally, &letters("eeee"), 4, 4, random);
    let wanted = Spoken::said(&[0x61, 0x61, 0x62, 0x62], &[1, 1, 2, 2], 10, 3);
    tally.equal("the first rule, by its target", said, wanted);
}

/// "State nk also holds rule 2": in nkn the first k is not after #, so rule 2 speaks it.
fn ends_inside(tally: &mut Tally, random: &mut Random) {
    let six = Loaded::new(tally, SIX_RULES, SIX_WORDS, SIX_SETS, random);
    let said = six.speak(tally, &letters("nkn"), 3, 3, random);
    tally.equal("a pattern inside another", said, Spoken::said(&[0x6E, 0x6B, 0x6E], &[6, 2, 6], 8, 0));
}

fn last_after_drop(tally: &mut Tally, random: &mut Random) {
    let mut image = Lent::any(IMAGE, random);
    lent::clear(tally, &mut image);
    let mut rule = [0; RULE];
    (rule[1], rule[STARTS[1]]) = (1, 5);
    let rule = Lent::new(&rule, random);
    lent::add(tally, &mut image, &rule, 0);
    lent::drop(tally, &mut image, 1);
    tally.equal("last after a drop", last(image.contents()), 1);
    lent::add(tally, &mut image, &rule, 0);
    tally.equal("the number after a drop", last(image.contents()), 2);
}

/// The walk is the function of the lent words: without rule 4's bit, ee is spoken by other rules; with
/// every set empty, nothing is; and the plain reading sees none of it.
fn words_decide(tally: &mut Tally, random: &mut Random) {
    let six = Loaded::new(tally, SIX_RULES, SIX_WORDS, SIX_SETS, random);
    let words = six.compiled.words.contents();
    let cases: [(u64, Spoken); 2] =
        [(!8, Spoken::said(&[0x6E, 0x65], &[1, 6, 5, 3], 10, 2)), (0, Spoken::refused(3, 1, 10))];
    for (mask, wanted) in cases {
        let sets: Vec<u64> = six.compiled.sets.contents().iter().map(|word| word & mask).collect();
        let compiled = Compiled::new(words, &sets, random);
        let said = six.speak_by(tally, &compiled, &letters("knee"), (256, 64), random);
        tally.equal("altered set words", said, wanted);
    }
}

/// Slices that are only read may be the same memory: names that are bytes of the ruleset, its head and the
/// targets of rules 2 and 4.
fn name_inside_image(tally: &mut Tally, random: &mut Random) {
    let six = Loaded::new(tally, SIX_RULES, SIX_WORDS, SIX_SETS, random);
    let target = |place: usize| HEAD + SLOT * place + NUMBER + STARTS[1];
    for start in [0, target(1), target(3)] {
        for length in [0, 1, 2, 70] {
            let mut room = Room::any(256, 64, random);
            lent::read_own_bytes(tally, &six.image, &six.list, start, length, &mut room);
        }
    }
}
