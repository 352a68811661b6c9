//! Names: of the ruleset's own letters, of several words, with wrong bytes, too long; and many of them in one
//! memory.

use crate::random::Random;
use crate::reference::classes::is_class;
use crate::reference::rule::SPACE;
use crate::reference::ruleset::Ruleset;

pub fn name(set: &Ruleset, letters: &[u8], random: &mut Random) -> Vec<u8> {
    let length = match random.below(12) {
        0 => 0,
        1 => 1,
        2 => 64,
        3 => random.pick(&[63, 65, 66, 80, 255, 400]),
        4..=6 => random.within(20, 64),
        _ => random.within(1, 20),
    };
    let several = random.one_in(2);
    let mut name = Vec::new();
    while name.len() < length {
        // Pieces of the rules make their long contexts come true; a boundary is a space inside a name.
        if !set.rules.is_empty() && random.one_in(2) {
            let (_, rule) = random.pick(&set.rules);
            for symbol in [rule.left(), rule.target(), rule.right()].concat() {
                match symbol {
                    0 if several => name.push(SPACE),
                    0 => {}
                    // A letter of the class, if it is defined.
                    _ if is_class(symbol) => {
                        name.push(random.pick_one(&[set.classes.letters(symbol), letters].concat()).to_owned())
                    }
                    _ => name.push(symbol),
                }
            }
        } else {
            name.push(random.pick(letters));
        }
    }
    name.truncate(length);
    if several {
        put_spaces(&mut name, random);
    }
    if length > 0 && random.one_in(8) {
        for _ in 0..random.within(1, 3) {
            let at = random.below(length);
            name[at] = random.pick(&[0x00, 0x01, 0x3F, 0x40, 0x41, 0x80, 0xFF]);
        }
    }
    name
}

/// Some letters become spaces: at the ends and in a row too, so that words have no letters.
fn put_spaces(name: &mut [u8], random: &mut Random) {
    if name.is_empty() {
        return;
    }
    let last = name.len() - 1;
    for _ in 0..random.below(4) {
        let inside = random.below(name.len());
        let at = random.pick(&[0, last, inside, inside]);
        let row = random.pick(&[1, 1, 1, 2, 3]).min(name.len() - at);
        name[at..at + row].fill(SPACE);
    }
}

/// The names that stand so after one another.
pub fn split(mut many: &[u8]) -> Vec<Vec<u8>> {
    let mut names = Vec::new();
    while let Some((length, rest)) = many.split_first() {
        let (name, following) = rest.split_at((*length as usize).min(rest.len()));
        names.push(name.to_vec());
        many = following;
    }
    names
}

/// Each name after a byte that says its length; the last may be cut off.
pub fn many(set: &Ruleset, letters: &[u8], random: &mut Random) -> Vec<u8> {
    let mut names = Vec::new();
    for _ in 0..random.below(12) {
        let mut name = name(set, letters, random);
        name.truncate(255);
        names.push(name.len() as u8);
        names.extend(name);
    }
    match random.below(4) {
        0 if !names.is_empty() => names.truncate(random.below(names.len())),
        1 => names.push(random.within(1, 255) as u8),
        _ => {}
    }
    names
}
