//! Tables from before an edit, as document 02 tells them: the edit count that accepted additions, drops and moves
//! raise, the words that it stands in, the walk that compares it, and its end; with the answers written out here.

use super::{add, letters, Loaded, Spoken, SIX_RULES, SIX_SETS, SIX_WORDS};
use crate::lent::{self, Compiled, Lent, Room};
use crate::random::Random;
use crate::reference::file::line;
use crate::reference::image::{put, EDITS, HEAD, IMAGE};
use crate::reference::rule::Rule;
use crate::reference::ruleset::Ruleset;
use crate::reference::ACCEPTED;
use crate::tally::Tally;

pub fn stale(tally: &mut Tally, random: &mut Random) {
    counted(tally, random);
    one_after_another(tally, random);
    uncounted(tally, random);
    spent(tally, random);
    high_word_first(tally, random);
    orders(tally, random);
    starts_again(tally, random);
    other_history(tally, random);
    many(tally, random);
}

/// Gives the library's code.
type Edit = fn(&mut Tally, &mut Lent<u8>, &mut Random) -> u8;

const K: [&[u8]; 4] = [&[], &[11], &[], &[0x71]];

/// Edits of the six rules that count. Their tables need no more words after them.
const COUNTED: [(&str, Edit); 4] = [
    ("an addition", |tally, image, random| add(tally, image, K, 6, random)),
    ("a drop", |tally, image, _| lent::drop(tally, image, 4)),
    ("a move", |tally, image, _| lent::shift(tally, image, 6, 0)),
    ("a move to its own place", |tally, image, _| lent::shift(tally, image, 2, 1)),
];

/// Those that do not, and the codes that they give whatever the count is: 23 comes after them all.
const UNCOUNTED: [(Edit, u8); 10] = [
    (|tally, image, random| add(tally, image, [&[], &[], &[], &[]], 9, random), 6),
    (|tally, image, random| add(tally, image, [&[0x5F], &[11], &[], &[]], 9, random), 20),
    (|tally, image, random| add(tally, image, K, 7, random), 7),
    (|tally, image, _| lent::drop(tally, image, 0), 8),
    (|tally, image, _| lent::drop(tally, image, 7), 8),
    (|tally, image, _| lent::shift(tally, image, 7, 9), 8),
    (|tally, image, _| lent::shift(tally, image, 1, 6), 7),
    (|tally, image, random| lent::set_class(tally, image, 0x40, &Lent::new(&[1, 5], random)), ACCEPTED),
    (|tally, image, random| lent::set_class(tally, image, 0x40, &Lent::new(&[2], random)), ACCEPTED),
    (|tally, image, random| lent::set_class(tally, image, 0x3F, &Lent::new(&[2], random)), 20),
];

/// The six rules with this edit count and the tables built then; two names are listed.
fn six(tally: &mut Tally, edits: u32, random: &mut Random) -> Loaded {
    let mut six = Loaded::new(tally, SIX_RULES, SIX_WORDS, SIX_SETS, random);
    let mut bytes = six.image.contents().to_vec();
    bytes[EDITS..HEAD].copy_from_slice(&edits.to_be_bytes());
    six.image = Lent::new(&bytes, random);
    lent::check(tally, &six.image);
    lent::build(tally, &six.image, &mut six.compiled);
    six.list(tally, "nab", &[1, 2], random);
    six.list(tally, "z", &[3], random);
    six
}

/// A name that needs the tables is refused, whatever the rules and the room; what is listed is spoken, and the plain
/// reading goes on.
fn are_stale(tally: &mut Tally, six: &Loaded, random: &mut Random) {
    for name in ["knee", "e", "", " ", "zz", "eke knee", "nab knee", "knee nab", "nab  z", "nab "] {
        for room in [(256, 64), (0, 0)] {
            let said = six.speak_by(tally, &six.compiled, &letters(name), room, random);
            tally.equal(name, said, Spoken::refused(22, 0, 0));
        }
        let name = Lent::new(&letters(name), random);
        lent::read_name(tally, &six.image, &six.list, &name, &mut Room::any(256, 64, random));
    }
    let cases: [(&[u8], usize, Spoken); 5] = [
        (&letters("nab"), 2, Spoken::said(&[1, 2], &[], 0, 0)),
        (&letters("nab z"), 3, Spoken::said(&[1, 2, 3], &[], 0, 0)),
        (&letters("nab z"), 2, Spoken::refused(4, 3, 0)),
        (&[5, 0x40], 9, Spoken::refused(1, 1, 0)),
        (&[5; 65], 9, Spoken::refused(2, 0, 0)),
    ];
    for (name, phones, wanted) in cases {
        let said = six.speak_by(tally, &six.compiled, name, (phones, 0), random);
        tally.equal("what needs no tables", said, wanted);
    }
}

/// Names by the tables as by the plain reading, which never gives 22.
fn are_good(tally: &mut Tally, six: &Loaded, random: &mut Random) {
    for name in ["knee", "", "eke knee", "nab knee", "nab", "zz"] {
        six.speak(tally, &letters(name), 256, 64, random);
    }
}

/// Each edit that counts raises the count by one, to its last, and makes the tables stale; built again, they are good.
fn counted(tally: &mut Tally, random: &mut Random) {
    for before in [0, 6, 0xFFFE, 0xFFFF, 0x1_0000, u32::MAX - 1] {
        for (what, edit) in COUNTED {
            let mut six = six(tally, before, random);
            are_good(tally, &six, random);
            let code = edit(tally, &mut six.image, random);
            tally.equal(what, (code, lent::edits(&six.image)), (ACCEPTED, before + 1));
            are_stale(tally, &six, random);
            lent::build(tally, &six.image, &mut six.compiled);
            are_good(tally, &six, random);
        }
    }
}

/// However many edits follow, the tables stay stale until they are built.
fn one_after_another(tally: &mut Tally, random: &mut Random) {
    let mut six = six(tally, 0, random);
    for (count, (what, edit)) in (1..).zip(COUNTED) {
        let code = edit(tally, &mut six.image, random);
        tally.equal(what, (code, lent::edits(&six.image)), (ACCEPTED, count));
        are_stale(tally, &six, random);
    }
    lent::build(tally, &six.image, &mut six.compiled);
    are_good(tally, &six, random);
}

/// What is refused, and a class that is set, leave the count and the tables as they are.
fn uncounted(tally: &mut Tally, random: &mut Random) {
    for edits in [0, 0xFFFF, u32::MAX] {
        let mut six = six(tally, edits, random);
        for (edit, code) in UNCOUNTED {
            let given = edit(tally, &mut six.image, random);
            tally.equal("what does not count", (given, lent::edits(&six.image)), (code, edits));
            let said = six.speak(tally, &letters("knee"), 256, 64, random);
            tally.equal("knee", said, Spoken::said(&[0x6E, 0x69], &[1, 6, 4], 10, 2));
        }
    }
}

/// The highest count: every addition, drop and move is refused, as their last check, and the tables stay good. The
/// other orders of that check stand in `UNCOUNTED`.
fn spent(tally: &mut Tally, random: &mut Random) {
    let mut six = six(tally, u32::MAX, random);
    for (what, edit) in COUNTED {
        let code = edit(tally, &mut six.image, random);
        tally.equal(what, (code, lent::edits(&six.image)), (23, u32::MAX));
        are_good(tally, &six, random);
    }
    let rule = Rule::new(K).expect("the parts are short enough");
    for (count, last, code) in [(512, 65_535, 21), (511, 65_535, 10), (511, 65_534, 23)] {
        let rules = (1..=count).map(|number| (number, rule)).collect();
        let mut image = vec![0; IMAGE];
        put(&Ruleset { last, rules, edits: u32::MAX, ..Ruleset::default() }, &mut image);
        let mut image = Lent::new(&image, random);
        let added = add(tally, &mut image, K, 0, random);
        let (dropped, moved) = (lent::drop(tally, &mut image, 1), lent::shift(tally, &mut image, 1, 1));
        tally.equal("the last check", [added, dropped, moved], [code, 23, 23]);
    }
}

/// The count in the words, and every count that differs from it in one bit or by the order of its words.
fn high_word_first(tally: &mut Tally, random: &mut Random) {
    let cases: [(u32, [u16; 2]); 7] = [
        (0, [0, 0]),
        (1, [0, 1]),
        (0xFFFF, [0, 0xFFFF]),
        (0x1_0000, [1, 0]),
        (0x1234_5678, [0x1234, 0x5678]),
        (0xFFFF_FFFE, [0xFFFF, 0xFFFE]),
        (u32::MAX, [0xFFFF, 0xFFFF]),
    ];
    for (edits, [high, low]) in cases {
        let six = six(tally, edits, random);
        let words = six.compiled.words.contents();
        tally.equal("the first words", words[..4].to_vec(), vec![high, low, 2, 8]);
        let mut others: Vec<[u16; 2]> = (0..16).map(|bit| [high ^ 1 << bit, low]).collect();
        others.extend((0..16).map(|bit| [high, low ^ 1 << bit]));
        others.extend([[high, low.wrapping_sub(1)], [high.wrapping_add(1), low.wrapping_add(1)]]);
        others.extend((high != low).then_some([low, high]));
        for count in others {
            let compiled = with_count(&six, count, random);
            let said = six.speak_by(tally, &compiled, &letters("knee"), (256, 64), random);
            tally.equal("another count", said, Spoken::refused(22, 0, 0));
        }
        let compiled = with_count(&six, [high, low], random);
        let said = six.speak_by(tally, &compiled, &letters("knee"), (256, 64), random);
        tally.equal("this count", said, Spoken::said(&[0x6E, 0x69], &[1, 6, 4], 10, 2));
    }
}

/// The tables as they are, with these words before L.
fn with_count(six: &Loaded, count: [u16; 2], random: &mut Random) -> Compiled {
    let words = [&count, &six.compiled.words.contents()[2..]].concat();
    Compiled::new(&words, six.compiled.sets.contents(), random)
}

/// 16 for lengths, 22, 16 for the passes, then each reached letter, 4 and 5. Tables altered in one way, with their own
/// count and with another.
fn orders(tally: &mut Tally, random: &mut Random) {
    let six = six(tally, 0x1_0002, random);
    let (words, sets) = (six.compiled.words.contents(), six.compiled.sets.contents());
    let altered = |at: usize, word: u16| {
        let mut words = words.to_vec();
        words[at] = word;
        words
    };
    let none = vec![0; sets.len()];
    let refused = |number| Spoken::refused(number, 0, 0);
    let cases: [(Vec<u16>, &[u64], Spoken, Spoken); 13] = [
        (words[..2].to_vec(), sets, refused(16), refused(16)),
        (words[..3].to_vec(), sets, refused(16), refused(16)),
        (words[..4].to_vec(), sets, refused(16), refused(16)),
        (words[..SIX_WORDS - 1].to_vec(), sets, refused(16), refused(16)),
        (words.to_vec(), &sets[..SIX_SETS - 1], refused(16), refused(16)),
        (altered(2, 0), sets, refused(16), refused(16)),
        (altered(3, 0), sets, refused(16), refused(16)),
        (altered(2, 3), sets, refused(16), refused(16)),
        (altered(3, 9), sets, refused(16), refused(16)),
        // # leads out of the left states, or of the right ones.
        (altered(4, 2), sets, refused(16), refused(22)),
        (altered(4 + 64 * 2, 8), sets, refused(16), refused(22)),
        (words.to_vec(), &none, Spoken::refused(3, 1, 10), refused(22)),
        (words.to_vec(), sets, Spoken::refused(5, 3, 10), refused(22)),
    ];
    for (words, sets, own, other) in cases {
        for (change, wanted) in [(0, own), (1, other)] {
            let mut words = words.clone();
            words[1] ^= change;
            let compiled = Compiled::new(&words, sets, random);
            let said = six.speak_by(tally, &compiled, &letters("knee"), (2, 2), random);
            tally.equal("knee", said, wanted);
            let said = six.speak_by(tally, &compiled, &letters("nab z"), (3, 0), random);
            tally.equal("listed words", said, Spoken::said(&[1, 2, 3], &[], 0, 0));
            let said = six.speak_by(tally, &compiled, &[5, 0x40], (2, 2), random);
            tally.equal("a wrong byte", said, Spoken::refused(1, 1, 0));
        }
    }
}

/// Clearing and reading a file set the count to 0, a refused file keeps it, and the file is without it. Memory too
/// short for a ruleset has the count 0.
fn starts_again(tally: &mut Tally, random: &mut Random) {
    for edits in [0, 9, 0x1_0000, u32::MAX] {
        let mut six = six(tally, edits, random);
        tally.equal("the count handed in", lent::edits(&six.image), edits);
        let short = Lent::new(&six.image.contents()[..IMAGE - 1], random);
        tally.equal("no count", lent::edits(&short), 0);
        let mut out = Lent::any(SIX_RULES.len(), random);
        lent::write_file(tally, &six.image, &mut out);
        tally.equal("the six rules' file", out.contents(), SIX_RULES);
        let cut_off = Lent::new(&SIX_RULES[..SIX_RULES.len() - 1], random);
        lent::read_file(tally, &cut_off, &mut six.image);
        tally.equal("the count after a refused file", lent::edits(&six.image), edits);
        are_good(tally, &six, random);
        let mut cleared = Lent::new(six.image.contents(), random);
        lent::clear(tally, &mut cleared);
        tally.equal("the count of the empty ruleset", lent::edits(&cleared), 0);
        add(tally, &mut cleared, K, 0, random);
        tally.equal("the count after one addition", lent::edits(&cleared), 1);
        lent::read_file(tally, &out, &mut six.image);
        tally.equal("the count after a file", lent::edits(&six.image), 0);
        if edits > 0 {
            are_stale(tally, &six, random);
        }
        lent::build(tally, &six.image, &mut six.compiled);
        are_good(tally, &six, random);
    }
}

/// The header's example of what remains the host's business: a file read in place of another, so that both counts are
/// 0, without a build. A name is spoken by the wrong rule, and nothing refuses it.
fn other_history(tally: &mut Tally, random: &mut Random) {
    let file = |first: &[u8]| {
        let a = line(&[2, 0, 2, 0, 1, 0, 1, 1, 0x61]);
        [line(&[1, 1, 0, 3, 0, 3]), line(first), a, line(&[2, 0, 3, 0, 1, 0, 1, 0x18, 0x58])].concat()
    };
    let z = file(&[2, 0, 1, 0, 1, 0, 0, 0x1A]);
    let a_before_x = file(&[2, 0, 1, 0, 1, 1, 1, 1, 0x18, 0x62]);
    let mut loaded = Loaded::new(tally, &z, 4 + 64 * 5, 8 * 5, random);
    lent::read_file(tally, &Lent::new(&a_before_x, random), &mut loaded.image);
    let said = loaded.speak_by(tally, &loaded.compiled, &letters("ax"), (2, 2), random);
    tally.equal("tables of another history", said, Spoken::said(&[0x61, 0x58], &[2, 3], 6, 0));
    lent::build(tally, &loaded.image, &mut loaded.compiled);
    let said = loaded.speak(tally, &letters("ax"), 2, 2, random);
    tally.equal("tables built again", said, Spoken::said(&[0x62, 0x58], &[1, 3], 6, 1));
}

/// Among many names, those that need the tables are refused, each in its reply; the phones of the others follow each
/// other.
fn many(tally: &mut Tally, random: &mut Random) {
    let mut six = six(tally, 0xFFFF, random);
    let mut names = Vec::new();
    for name in ["nab", "knee", "nab z", "", "z knee", "z"] {
        names.push(name.len() as u8);
        names.extend(letters(name));
    }
    let names = Lent::new(&names, random);
    let refused = [22, 0, 0, 0, 0];
    let stale = [[255, 2, 0, 0, 0], refused, [255, 3, 0, 0, 0], refused, refused, [255, 1, 0, 0, 0]];
    let good = [
        [255, 2, 0, 0, 0],
        [255, 2, 3, 10, 2],
        [255, 3, 0, 0, 0],
        [255, 0, 0, 2, 0],
        [255, 3, 3, 10, 2],
        [255, 1, 0, 0, 0],
    ];
    lent::shift(tally, &mut six.image, 6, 5);
    let cases: [(&[[usize; 5]], &[u8]); 2] =
        [(&stale, &[1, 2, 1, 2, 3, 3]), (&good, &[1, 2, 0x6E, 0x69, 1, 2, 3, 3, 0x6E, 0x69, 3])];
    for (replied, phones) in cases {
        let (mut room, mut replies) = (Room::any(20, 20, random), Lent::any(30, random));
        lent::speak_many(tally, &six.image, &six.list, &six.compiled, &names, &mut room, &mut replies);
        tally.equal("replies", replies.contents(), replied.as_flattened());
        tally.equal("phones", &room.contents().0[..phones.len()], phones);
        lent::build(tally, &six.image, &mut six.compiled);
    }
}
