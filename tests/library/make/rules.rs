//! Random rules and rulesets. Few letters, so that patterns overlap, repeat and share their prefixes.

use super::classes::{classed, some_classes, with_classes};
use crate::random::Random;
use crate::reference::classes::Classes;
use crate::reference::rule::{Rule, CONTEXT, LENGTHS, PHONES, RULE, SPACE, STARTS, TARGET};
use crate::reference::ruleset::{Ruleset, MOST_RULES};
use std::collections::HashSet;

/// Lengths for a part of a rule, at and past its limit: one more, two more, which contexts could have once, and many
/// more than there is room for.
pub const SOME_LENGTHS: [u8; 9] = {
    let context = CONTEXT as u8;
    [0, 1, 2, context, context + 1, context + 2, context + 3, 200, 255]
};

/// The letters that a ruleset and its names use.
pub fn letters(random: &mut Random) -> Vec<u8> {
    let most = random.pick(&[1, 2, 3, 3, 4, 6, 62]);
    let mut all: Vec<u8> = (1..SPACE).collect();
    random.shuffle(&mut all);
    all.truncate(random.within(1, most));
    all
}

/// A rule of sound shape; the bytes past its parts may be anything.
pub fn rule(letters: &[u8], earlier: &[(u16, Rule)], random: &mut Random) -> Rule {
    if !earlier.is_empty() && random.one_in(10) {
        return random.pick(earlier).1;
    }
    let mut left = word(letters, 0, CONTEXT, random);
    let mut right = word(letters, 0, CONTEXT, random);
    let mut target = word(letters, 1, TARGET, random);
    if !earlier.is_empty() && random.one_in(3) {
        // Patterns that share a prefix or a suffix with an earlier rule's.
        let (_, model) = random.pick(earlier);
        match random.below(3) {
            0 => left = altered(model.left(), letters, random),
            1 => right = altered(model.right(), letters, random),
            _ => target = model.target().to_vec(),
        }
    }
    if random.one_in(3) && left.len() < CONTEXT {
        left.retain(|symbol| *symbol != 0);
        left.insert(0, 0);
    }
    if random.one_in(3) && right.len() < CONTEXT {
        right.retain(|symbol| *symbol != 0);
        right.push(0);
    }
    let phones: Vec<u8> = (0..random.within(0, PHONES)).map(|_| random.within(1, 255) as u8).collect();
    let sound = Rule::new([&left, &target, &right, &phones]).expect("the parts are short enough");
    if random.one_in(2) {
        return with_filler(sound, random);
    }
    sound
}

/// Mostly short, so that rules fit often.
fn word(letters: &[u8], least: usize, most: usize, random: &mut Random) -> Vec<u8> {
    let ceiling = random.pick(&[least, least, least + 1, least + 1, most]);
    (0..random.within(least, ceiling)).map(|_| random.pick(letters)).collect()
}

/// A context that differs from this one in its last letter, if at all; # stays where it may stand. Only a reference
/// that is wrong on purpose has a longer one than there is room for.
fn altered(context: &[u8], letters: &[u8], random: &mut Random) -> Vec<u8> {
    let mut altered = context.to_vec();
    altered.truncate(CONTEXT);
    if let Some(symbol) = altered.last_mut().filter(|symbol| **symbol != 0) {
        *symbol = random.pick(letters);
    }
    altered
}

fn with_filler(rule: Rule, random: &mut Random) -> Rule {
    let mut bytes: [u8; RULE] = random.bytes(RULE).try_into().expect("as many bytes as a rule has");
    bytes[..LENGTHS].copy_from_slice(&rule.0[..LENGTHS]);
    for (start, part) in STARTS.into_iter().zip([rule.left(), rule.target(), rule.right(), rule.phones()]) {
        bytes[start..][..part.len()].copy_from_slice(part);
    }
    Rule(bytes)
}

/// Rulesets of no rules, one, few, and in one of `seldom` cases hundreds or all 512; half of them with classes.
pub fn ruleset(letters: &[u8], seldom: usize, random: &mut Random) -> Ruleset {
    let count = match random.below(10) {
        _ if random.one_in(seldom) => random.pick(&[100, 300, MOST_RULES - 1, MOST_RULES]),
        0 => 0,
        1 => 1,
        2..=7 => random.within(2, 12),
        _ => random.within(13, 70),
    };
    let mut rules: Vec<(u16, Rule)> = Vec::new();
    for _ in 0..count {
        let rule = rule(letters, &rules, random);
        rules.push((0, rule));
    }
    let mut classes = Classes::default();
    if random.one_in(2) {
        classes = some_classes(letters, random);
        let most = if random.one_in(seldom) { MOST_RULES } else { count.max(60) };
        classed(&mut rules, most, &classes, random);
    }
    let count = rules.len();
    // A rule for each letter at the end makes most names readable.
    if letters.len() <= count && !random.one_in(4) {
        for (letter, (_, rule)) in letters.iter().zip(rules.iter_mut().rev()) {
            let phone = [random.within(1, 255) as u8];
            *rule = Rule::new([&[], &[*letter], &[], &phone]).expect("the parts are short enough");
        }
    }
    let (numbers, last) = numbers(count, random);
    for (slot, number) in rules.iter_mut().zip(numbers) {
        slot.0 = number;
    }
    Ruleset { last, rules, classes, edits: edits(random) }
}

/// An edit count: none, few, about the first that needs both words, about the most, any.
pub fn edits(random: &mut Random) -> u32 {
    match random.below(8) {
        0 | 1 => 0,
        2 | 3 => random.within(1, 100) as u32,
        4 => random.pick(&[0xFFFE, 0xFFFF, 0x1_0000, 0x1_0001]),
        5 => random.pick(&[u32::MAX - 2, u32::MAX - 1, u32::MAX, u32::MAX]),
        _ => random.next() as u32,
    }
}

/// Numbers that differ and lie from 1 to `last`, with `last` at and near its bounds too.
fn numbers(count: usize, random: &mut Random) -> (Vec<u16>, u16) {
    let last = match random.below(4) {
        0 => count,
        1 => count + random.below(5),
        2 => 65_535 - random.below(3),
        _ => random.within(count, 65_535),
    };
    let mut numbers = HashSet::new();
    while numbers.len() < count {
        numbers.insert(random.within(1, last) as u16);
    }
    let mut numbers: Vec<u16> = numbers.into_iter().collect();
    numbers.sort_unstable();
    if random.one_in(2) {
        random.shuffle(&mut numbers);
    }
    (numbers, last as u16)
}

/// The bytes of a rule for this ruleset, half of them with its classes; often of broken shape, by a part that is too
/// long or 3F in one of its symbols too, or with a class that is undefined; sometimes too few or too many.
pub fn any_rule(letters: &[u8], set: &Ruleset, random: &mut Random) -> Vec<u8> {
    let mut rule = rule(letters, &set.rules, random);
    if random.one_in(2) {
        rule = with_classes(rule, &set.classes, random);
    }
    let mut bytes = rule.0.to_vec();
    let [left, target, right, _] = STARTS;
    match random.below(15) {
        0 => bytes = random.bytes(RULE),
        1 => bytes.truncate(random.below(RULE)),
        2 => {
            // By four bytes too, as when contexts had up to six symbols.
            let more = random.pick(&[1, 4]);
            bytes.extend(random.bytes(more));
        }
        3 => bytes[random.below(LENGTHS)] = random.pick(&SOME_LENGTHS),
        4 => bytes[random.within(LENGTHS, RULE - 1)] = random.pick(&[0x00, SPACE, 0x40, 0x5F, 0x60, 0xFF]),
        5 => bytes[random.pick(&[left, target, right])] = SPACE,
        // As many classes as contexts have room for: mostly too many literal rules.
        6 => {
            bytes[..LENGTHS].copy_from_slice(&[CONTEXT as u8, 1, CONTEXT as u8, 0]);
            bytes[left..][..CONTEXT].fill(random.within(0x40, 0x5F) as u8);
            bytes[right..][..CONTEXT].fill(random.pick(&[0x40, 0x5F]));
        }
        7 => bytes[random.pick(&[left, right])] = random.within(0x40, 0x5F) as u8,
        8 => too_long(&mut bytes, random),
        _ => {}
    }
    bytes
}

/// In the bytes of a rule a context of one symbol too many, or two: it runs on into the next part, and its length is all
/// that is wrong with it.
pub fn too_long(bytes: &mut [u8], random: &mut Random) {
    let part = random.pick(&[0, 2]);
    let (held, length) = ((bytes[part] as usize).min(CONTEXT), CONTEXT + random.pick(&[1, 1, 2]));
    let symbols = &mut bytes[STARTS[part]..][..length];
    if part == 2 {
        symbols[..held].iter_mut().filter(|symbol| **symbol == 0).for_each(|boundary| *boundary = 1);
    }
    symbols[held..].fill(1);
    bytes[part] = length as u8;
}
