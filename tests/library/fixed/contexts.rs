//! Contexts of four, as document 02 tells them: taken at the limit and refused past it, where a rule is added, in a
//! file and in a ruleset handed in, on either side and on both; with the answers written out here.

use super::{Loaded, Spoken};
use crate::lent::{self, Compiled, Lent, List, Room};
use crate::random::Random;
use crate::reference::file::{self, line};
use crate::reference::image::{last, put, HEAD, IMAGE, NUMBER, SLOT};
use crate::reference::rule::{Rule, CONTEXT, PHONES, RULE, STARTS, TARGET};
use crate::reference::ruleset::Ruleset;
use crate::reference::tables::{sets_needed, words_needed};
use crate::reference::{refuse, ACCEPTED};
use crate::tally::Tally;

const K: u8 = 0x30;
/// A class, of M alone where no more is said, and one that is undefined.
const V: u8 = 0x40;
const UNDEFINED: u8 = 0x41;
const M: u8 = 0x31;
const N: u8 = 0x32;

/// One past the limit, what was the limit, and more than the bytes of a rule.
const TOO_MANY: [usize; 3] = [CONTEXT + 1, CONTEXT + 2, 200];

/// Whether there is a left context, and whether there is a right one.
const SIDES: [[bool; 2]; 3] = [[true, false], [false, true], [true, true]];

pub fn contexts(tally: &mut Tally, random: &mut Random) {
    added(tally, random);
    read(tally, random);
    longest_before(tally, random);
    held(tally, random);
    spoken(tally, random);
}

/// Left contexts of so many symbols: letters, with a class at either end, classes alone; each with # at the outer end
/// too. A right context is one of them backwards.
fn contexts_of(count: usize) -> Vec<Vec<u8>> {
    let plain: Vec<u8> = (1..27).cycle().take(count).collect();
    let mut contexts = vec![vec![V; count], plain.clone()];
    for at in [0, count - 1] {
        contexts.push(plain.clone());
        contexts[2 + (at > 0) as usize][at] = V;
    }
    for k in 0..contexts.len() {
        let mut bounded = contexts[k].clone();
        bounded[0] = 0;
        contexts.push(bounded);
    }
    contexts
}

/// The parts of a rule for k with this context on these sides.
fn parts(context: &[u8], [left, right]: [bool; 2]) -> [Vec<u8>; 4] {
    let backwards = context.iter().rev().copied().collect();
    let on = |side: bool, context: Vec<u8>| if side { context } else { Vec::new() };
    [on(left, context.to_vec()), vec![K], on(right, backwards), Vec::new()]
}

/// The same in the bytes of a rule, whatever its length: past its room a context runs on, as far as there are bytes.
fn bytes(context: &[u8], sides: [bool; 2]) -> [u8; RULE] {
    let mut bytes = [0; RULE];
    let parts = parts(context, sides);
    for k in [1, 0, 2] {
        let kept = parts[k].len().min(RULE - STARTS[k]);
        bytes[k] = parts[k].len() as u8;
        bytes[STARTS[k]..][..kept].copy_from_slice(&parts[k][..kept]);
    }
    bytes
}

/// 6 past the limit, before 20 and 7, and for a rule of as many bytes as it had when contexts had two symbols more.
fn added(tally: &mut Tally, random: &mut Random) {
    let mut image = Lent::any(IMAGE, random);
    lent::clear(tally, &mut image);
    lent::set_class(tally, &mut image, V, &Lent::new(&[M], random));
    for sides in SIDES {
        for context in contexts_of(CONTEXT) {
            let rule = bytes(&context, sides);
            let before = [&rule[..], &[0; 4]].concat();
            let undefined = rule.map(|symbol| if symbol == V { UNDEFINED } else { symbol });
            let has_class = undefined != rule;
            let cases = [
                (&rule[..], 1, 7),
                (&before, 0, 6),
                (&before, 1, 6),
                (&undefined, 0, if has_class { 20 } else { ACCEPTED }),
            ];
            for (rule, p, code) in cases {
                let given = lent::add(tally, &mut image, &Lent::new(rule, random), p);
                tally.equal("a rule with a context at the limit", given, code);
            }
            if !has_class {
                drop_last(tally, &mut image);
            }
            let given = lent::add(tally, &mut image, &Lent::new(&rule, random), 0);
            tally.equal("a context at the limit", given, ACCEPTED);
            lent::check(tally, &image);
            drop_last(tally, &mut image);
        }
        for context in TOO_MANY.into_iter().flat_map(contexts_of) {
            let rule = bytes(&context, sides);
            let undefined = rule.map(|symbol| if symbol == V { UNDEFINED } else { symbol });
            for (rule, p) in [(&rule, 0), (&rule, 1), (&undefined, 0), (&undefined, usize::MAX)] {
                let given = lent::add(tally, &mut image, &Lent::new(rule, random), p);
                tally.equal("a context past the limit", given, 6);
            }
        }
    }
}

fn drop_last(tally: &mut Tally, image: &mut Lent<u8>) {
    let number = last(image.contents());
    let given = lent::drop(tally, image, number);
    tally.equal("the rule dropped again", given, ACCEPTED);
}

/// A rule's line, with lengths that agree with its bytes.
fn rule_line(number: u8, parts: &[Vec<u8>; 4]) -> Vec<u8> {
    let lengths = parts.each_ref().map(|part| part.len() as u8);
    line(&[&[2, 0, number], &lengths[..], &parts.concat()].concat())
}

/// 14 at the line past the limit, wherever it stands and whatever follows; 13 of an earlier line comes first.
fn read(tally: &mut Tally, random: &mut Random) {
    let head = |count: u8| line(&[1, 1, 0, count, 0, 9]);
    let class = line(&[7, V, 1, M]);
    for sides in SIDES {
        for context in contexts_of(CONTEXT) {
            let text = [head(1), class.clone(), rule_line(9, &parts(&context, sides))].concat();
            tally.equal("the reference's reading", file::read(&text).is_ok(), true);
            let mut image = Lent::any(IMAGE, random);
            lent::read_file(tally, &Lent::new(&text, random), &mut image);
            let mut out = Lent::any(text.len(), random);
            lent::write_file(tally, &image, &mut out);
            tally.equal("a file with contexts at the limit", out.contents(), &text[..]);
            // The lengths are one more than the symbols that follow, and one less.
            for change in [1, -1] {
                let parts = parts(&context, sides);
                let mut lengths = parts.each_ref().map(|part| part.len() as u8);
                for (k, side) in [0, 2].into_iter().zip(sides) {
                    lengths[k] = lengths[k].wrapping_add_signed(if side { change } else { 0 });
                }
                let wrong = line(&[&[2, 0, 9], &lengths[..], &parts.concat()].concat());
                refused(tally, &[head(1), class.clone(), wrong], 14, 2, random);
            }
        }
        for context in TOO_MANY.into_iter().flat_map(contexts_of) {
            let sound = parts(&contexts_of(CONTEXT)[1], sides);
            for at in 0..3 {
                let mut lines = vec![head(3), class.clone()];
                lines.extend([1, 2, 3].map(|number| rule_line(number, &sound)));
                lines[2 + at] = rule_line(1 + at as u8, &parts(&context, sides));
                refused(tally, &lines, 14, 2 + at, random);
                // Another fault in the next line, or in the one before.
                lines.push(b"x\n".to_vec());
                lines[3 + at] = b"x\n".to_vec();
                refused(tally, &lines, 14, 2 + at, random);
                lines[1 + at] = b"x\n".to_vec();
                refused(tally, &lines, 13, 1 + at, random);
            }
        }
    }
}

/// A file of these lines is refused so at the start of one of them.
fn refused(tally: &mut Tally, lines: &[Vec<u8>], number: u8, at: usize, random: &mut Random) {
    let place = lines[..at].concat().len();
    let text = lines.concat();
    tally.equal("the reference's reading", file::read(&text).map(|_| ()), refuse(number, place));
    let mut image = Lent::any(IMAGE, random);
    lent::read_file(tally, &Lent::new(&text, random), &mut image);
}

/// The longest file of the time when contexts had two symbols more: refused at its first rule.
fn longest_before(tally: &mut Tally, random: &mut Random) {
    let mut lines = vec![line(&[1, 1, 2, 0, 2, 0])];
    let all: Vec<u8> = (1..33).collect();
    lines.extend((0x40..0x60).map(|symbol| line(&[&[7, symbol, 32], &all[..]].concat())));
    let parts = [vec![1; CONTEXT + 2], vec![2; TARGET], vec![3; CONTEXT + 2], vec![4; PHONES]];
    lines.extend((1..=512u16).map(|number| {
        let lengths = parts.each_ref().map(|part| part.len() as u8);
        line(&[&[2], &number.to_be_bytes()[..], &lengths, &parts.concat()].concat())
    }));
    tally.equal("the longest file before", lines.concat().len(), file::LONGEST + 512 * 2 * 4);
    refused(tally, &lines, 14, 33, random);
}

/// 0 from every call where a slot in use has a context past the limit, whatever it is; a slot past the rules is not
/// judged.
fn held(tally: &mut Tally, random: &mut Random) {
    let full = Rule(bytes(&contexts_of(CONTEXT)[1], [true; 2]));
    let rules = [(3, full), (1, full), (2, full)].to_vec();
    let mut set = Ruleset { last: 3, rules, ..Ruleset::default() };
    set.classes.set(V, &[M]);
    let mut sound = vec![0x05; IMAGE];
    put(&set, &mut sound);
    let list = List::empty(tally, random);
    for sides in SIDES {
        for context in [CONTEXT].into_iter().chain(TOO_MANY).flat_map(contexts_of) {
            let rule = bytes(&context, sides);
            for slot in 0..4 {
                let mut image = sound.clone();
                image[HEAD + SLOT * slot + NUMBER..][..RULE].copy_from_slice(&rule);
                let taken = slot == 3 || context.len() == CONTEXT;
                judged(tally, &image, &list, if taken { ACCEPTED } else { 0 }, random);
            }
        }
    }
}

/// Each call that judges a ruleset gives this code; those that edit it leave it alone where that is 0.
fn judged(tally: &mut Tally, image: &[u8], list: &List, code: u8, random: &mut Random) {
    let rule = Lent::new(&Rule::new([&[], &[K], &[], &[]]).expect("the parts are short enough").0, random);
    let image = |random: &mut Random| Lent::new(image, random);
    let mut edited = image(random);
    lent::check(tally, &edited);
    let some = Lent::new(&[1], random);
    let given = [
        lent::set_class(tally, &mut edited, 0x5F, &some),
        lent::add(tally, &mut edited, &rule, 0),
        lent::shift(tally, &mut edited, 4, 3),
        lent::drop(tally, &mut edited, 4),
    ];
    tally.equal("edits of a ruleset handed in", given, [code; 4]);
    lent::check(tally, &edited);

    let image = image(random);
    lent::write_file(tally, &image, &mut Lent::any(1_000, random));
    let states = 1 + 3 * (CONTEXT + TARGET);
    let mut compiled = Compiled::any(words_needed(states, states), sets_needed(states, states), random);
    lent::build(tally, &image, &mut compiled);
    // A letter that no rule fits, and a wrong byte: 0 comes before.
    for (letter, otherwise) in [(K, 3), (0x40, 1)] {
        let (name, mut room) = (Lent::new(&[letter], random), Room::any(256, 64, random));
        let read = lent::read_name(tally, &image, list, &name, &mut room);
        let (spoken, _) = lent::speak(tally, &image, list, &compiled, &name, &mut room);
        let wanted = if code == ACCEPTED { otherwise } else { 0 };
        tally.equal("a name by a ruleset handed in", [read.code, spoken.code], [wanted; 2]);
    }
    let (many, mut replies) = (Lent::new(&[1, K], random), Lent::any(5, random));
    let mut room = Room::any(256, 64, random);
    lent::speak_many(tally, &image, list, &compiled, &many, &mut room, &mut replies);
}

/// Full contexts fit where all their symbols stand, and only there: the outermost decides too, # among them.
fn spoken(tally: &mut Tally, random: &mut Random) {
    let before: Vec<u8> = (1..).take(CONTEXT).collect();
    let after: Vec<u8> = (0x11..).take(CONTEXT).collect();
    let (start, end) = ([&[0], &before[1..]].concat(), [&after[..CONTEXT - 1], &[0]].concat());
    let (class, start_class) = ([V; CONTEXT], [&[0], &[V; CONTEXT - 1][..]].concat());
    let end_class: Vec<u8> = start_class.iter().rev().copied().collect();
    let rules: [[&[u8]; 4]; 7] = [
        [&before, &[K], &after, &[1]],
        [&start, &[K], &end, &[2]],
        [&class, &[K], &after, &[3]],
        [&before, &[K], &class, &[4]],
        [&start_class, &[K], &[], &[5]],
        [&[], &[K], &end_class, &[6]],
        [&[], &[K], &[], &[7]],
    ];
    // Each other letter gives itself.
    let alone = [&before[..], &after, &[M, N]].concat();
    let count = (rules.len() + alone.len()) as u8;
    let mut lines = vec![line(&[1, 1, 0, count, 0, count]), line(&[7, V, 2, M, N])];
    lines.extend((1..).zip(rules).map(|(number, parts)| rule_line(number, &parts.map(<[u8]>::to_vec))));
    let own = |letter: &u8| [vec![], vec![*letter], vec![], vec![*letter]];
    lines.extend((8..).zip(&alone).map(|(number, letter)| rule_line(number, &own(letter))));
    // The rules with classes mean 3 << CONTEXT literal rules.
    let states = 1 + (count as usize + (3 << CONTEXT)) * (CONTEXT + TARGET);
    let (words, sets) = (words_needed(states, states), sets_needed(states, states));
    let loaded = Loaded::new(tally, &lines.concat(), words, sets, random);

    let some: Vec<u8> = [M, N].into_iter().cycle().take(CONTEXT).collect();
    let with = |context: &[u8], at: usize, letter: u8| {
        let mut context = context.to_vec();
        context[at] = letter;
        context
    };
    let last = CONTEXT - 1;
    let (inner, outer) = (&before[1..], &after[..last]);
    // What stands before and after k, and the rule that it is spoken by; the last rule fits every k.
    let cases: [(Vec<u8>, Vec<u8>, u16); 20] = [
        (before.clone(), after.clone(), 1),
        ([&[M], &before[..]].concat(), [&after[..], &[M]].concat(), 1),
        (with(&before, 0, N), after.clone(), 7),
        (before.clone(), with(&after, last, N), 7),
        (with(&before, last, N), after.clone(), 7),
        (before.clone(), with(&after, 0, N), 7),
        (inner.to_vec(), after.clone(), 7),
        (before.clone(), outer.to_vec(), 7),
        (inner.to_vec(), outer.to_vec(), 2),
        (before.clone(), [outer, &[M]].concat(), 7),
        ([&[M], inner].concat(), outer.to_vec(), 7),
        (some.clone(), after.clone(), 3),
        ([&[1], &some[..]].concat(), after.clone(), 3),
        (with(&some, 0, 1), after.clone(), 7),
        (before.clone(), some.clone(), 4),
        (before.clone(), with(&some, last, 1), 7),
        (some[1..].to_vec(), vec![1], 5),
        (with(&some, 0, 1), vec![1], 7),
        (vec![1], some[1..].to_vec(), 6),
        (vec![1], with(&some, last, 1), 7),
    ];
    for (left, right, by) in cases {
        let name = [&left[..], &[K], &right].concat();
        let (mut phones, mut numbers) = (Vec::new(), Vec::new());
        for letter in &name {
            let place = alone.iter().position(|known| known == letter);
            phones.push(if place.is_some() { *letter } else { by as u8 });
            numbers.push(place.map_or(by, |at| 8 + at as u16));
        }
        let said = loaded.speak(tally, &name, 256, 64, random);
        let wanted = Spoken::said(&phones, &numbers, 2 * name.len() + 2, (by < 7) as usize);
        tally.equal("full contexts", said, wanted);
    }
}
