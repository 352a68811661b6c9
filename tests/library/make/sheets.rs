//! Sheets: many names that begin alike, and sheets cut short or of too many names.

use super::names::name;
use crate::random::Random;
use crate::reference::rule::SPACE;
use crate::reference::ruleset::Ruleset;
use crate::reference::sheet::MOST_NAMES;

/// The most bytes that a length byte tells.
const LONGEST: usize = 255;

/// Most begin like one of few; seldom as many as there may be, or one more, and then short ones or all of the greatest length.
pub fn names(set: &Ruleset, letters: &[u8], random: &mut Random) -> Vec<Vec<u8>> {
    let few: Vec<Vec<u8>> =
        (0..random.pick(&[1, 2, 2, 4])).map(|_| sound_mostly(set, letters, random)).collect();
    let many = random.one_in(24);
    let count = match random.below(3) {
        _ if many => MOST_NAMES - 1 + random.below(3),
        0 => random.below(4),
        1 => random.within(2, 12),
        _ => random.within(6, 40),
    };
    let longest = if many { random.pick(&[0, 3, 6, 6, 64, LONGEST]) } else { LONGEST };
    (0..count)
        .map(|_| {
            let mut some = match random.below(6) {
                0 => sound_mostly(set, letters, random),
                _ => alike(&few, letters, random),
            };
            some.truncate(longest);
            // So that sheets are longer than those of sound names.
            if many && longest == LONGEST {
                some.resize(LONGEST, letters[0]);
            }
            some
        })
        .collect()
}

/// Names that are refused with 2 or 1 have no words: fewer of them than elsewhere.
fn sound_mostly(set: &Ruleset, letters: &[u8], random: &mut Random) -> Vec<u8> {
    let mut some = name(set, letters, random);
    some.truncate(random.pick(&[5, 20, 64, 64, LONGEST]));
    some
}

/// Begins, or ends, like one of these, or has the same words in another order.
fn alike(few: &[Vec<u8>], letters: &[u8], random: &mut Random) -> Vec<u8> {
    let (one, other) = (random.pick_one(few), random.pick_one(few));
    let at = random.below(one.len() + 1);
    match random.below(6) {
        0 => one.clone(),
        1 => [&other[..at.min(other.len())], &one[at..]].concat(),
        2 => {
            let joined = [&one[..], &[SPACE], other].concat();
            let mut words: Vec<&[u8]> = joined.split(|byte| *byte == SPACE).collect();
            random.shuffle(&mut words);
            let mut name = words.join(&SPACE);
            name.truncate(64);
            name
        }
        _ => {
            let mut name = one[..at].to_vec();
            name.extend((0..random.below(4)).map(|_| random.pick(letters)));
            name
        }
    }
}

/// The names, each after a byte that says its length.
pub fn joined<T: AsRef<[u8]>>(names: &[T]) -> Vec<u8> {
    names.iter().flat_map(|name| [&[name.as_ref().len() as u8], name.as_ref()].concat()).collect()
}

/// Seldom cut short, or with a length that no bytes follow.
pub fn sheet(names: &[Vec<u8>], random: &mut Random) -> Vec<u8> {
    let mut sheet = joined(names);
    match random.below(24) {
        0 if !sheet.is_empty() => sheet.truncate(random.below(sheet.len())),
        1 => sheet.push(random.within(1, LONGEST) as u8),
        _ => {}
    }
    sheet
}
