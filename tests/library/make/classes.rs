//! Random classes, rules that use them, and what may not be a class. Of the letters that names use, so that classes
//! overlap and are met.

use crate::random::Random;
use crate::reference::classes::{used, Classes, MOST_LETTERS, SYMBOLS};
use crate::reference::rule::{Rule, SPACE};
use crate::reference::ruleset::{Ruleset, MOST_RULES};

pub fn some_classes(letters: &[u8], random: &mut Random) -> Classes {
    let mut classes = Classes::default();
    for _ in 0..random.pick(&[1, 2, 3, 40]) {
        classes.set(symbol(random), &some_letters(letters, random));
    }
    classes
}

/// The first and the last more often.
fn symbol(random: &mut Random) -> u8 {
    match random.below(4) {
        0 => *SYMBOLS.start(),
        1 => *SYMBOLS.end(),
        _ => random.within(*SYMBOLS.start() as usize, *SYMBOLS.end() as usize) as u8,
    }
}

/// Mostly few; also one, and as many as there may be.
fn some_letters(letters: &[u8], random: &mut Random) -> Vec<u8> {
    let count = random.pick(&[1, 1, 2, 2, 3, 4, MOST_LETTERS - 1, MOST_LETTERS]);
    let mut own = letters.to_vec();
    random.shuffle(&mut own);
    own.truncate(count);
    if count > 4 || random.one_in(5) {
        let mut others: Vec<u8> = (1..SPACE).filter(|letter| !own.contains(letter)).collect();
        random.shuffle(&mut others);
        own.extend(others.into_iter().take(count - own.len()));
    }
    own.sort_unstable();
    own
}

/// Some symbols of its contexts become classes; # stays.
pub fn with_classes(mut rule: Rule, classes: &Classes, random: &mut Random) -> Rule {
    let symbols: Vec<u8> = classes.defined().map(|(symbol, _)| symbol).collect();
    if symbols.is_empty() {
        return rule;
    }
    let share = random.pick(&[1, 2, 4]);
    let (left, right) = rule.contexts_mut();
    for place in left.iter_mut().chain(right) {
        if *place != 0 && random.one_in(share) {
            *place = random.pick(&symbols);
        }
    }
    rule
}

/// The rules with classes in their contexts, of at most so many literal rules together. Rules of the contexts' own
/// letters then make up for what is wanting, or nearly, where the ruleset is to be full.
pub fn classed(rules: &mut Vec<(u16, Rule)>, most: usize, classes: &Classes, random: &mut Random) {
    let mut total = 0;
    let literal = rules.clone();
    for (_, rule) in rules.iter_mut() {
        if random.below(3) > 0 {
            *rule = with_classes(*rule, classes, random);
        }
    }
    rules.retain(|(_, rule)| {
        let count = classes.literal_count(rule);
        let keeps = count <= most - total;
        total += if keeps { count } else { 0 };
        keeps
    });
    if most == MOST_RULES && !literal.is_empty() {
        for _ in random.pick(&[0, 0, 1, 2])..most - total {
            rules.insert(random.below(rules.len() + 1), random.pick(&literal));
        }
    }
}

/// A symbol and letters to set: in use or not, defined or not, and in one of four cases with a fault.
pub fn setting(set: &Ruleset, letters: &[u8], random: &mut Random) -> (u8, Vec<u8>) {
    let in_use: Vec<u8> = set.rules.iter().flat_map(|(_, rule)| used(rule)).collect();
    let defined: Vec<u8> = set.classes.defined().map(|(symbol, _)| symbol).collect();
    let symbol = match random.below(4) {
        0 if !in_use.is_empty() => random.pick(&in_use),
        1 if !defined.is_empty() => random.pick(&defined),
        _ => symbol(random),
    };
    let mut some = some_letters(letters, random);
    if !random.one_in(4) {
        return (symbol, some);
    }
    let at = random.below(some.len());
    match random.below(7) {
        0 => return (random.pick(&[0, SPACE, SYMBOLS.end() + 1, 0xFF]), some),
        1 => some.clear(),
        2 => some.push(some[at]),
        3 => some.reverse(),
        4 => some[at] = random.pick(&[0, SPACE, *SYMBOLS.start(), 0xFF]),
        5 => some = (1..SPACE).take(random.pick(&[MOST_LETTERS + 1, MOST_LETTERS + 2, 62])).collect(),
        _ => some.extend(random.bytes(300)),
    }
    (symbol, some)
}
