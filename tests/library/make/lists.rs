//! Exceptions lists: names and phones that share, lists for the names that a trial speaks, damaged memory.

use crate::lent::{lists, Lent, List};
use crate::random::Random;
use crate::reference::exceptions::{Exceptions, LIST};
use crate::reference::rule::SPACE;
use crate::tally::Tally;

/// A name to list, remove or speak, with spaces or without: listed, near a listed one, of listed words, or
/// new; seldom none that can be listed.
pub fn name(list: &Exceptions, letters: &[u8], random: &mut Random) -> Vec<u8> {
    let held = list.phones.len();
    let symbols = &[letters, &[SPACE]].concat();
    match random.below(24) {
        0 => random.pick(&[&[][..], &[5; 65], &[0x40; 65], &[5, 0x40, 0], &[0], &[5, 5, 0xFF]]).to_vec(),
        1 => word(symbols, random.within(60, 64), random),
        2..=9 if held > 0 => any_listed(list, random),
        10..=14 if held > 0 => near(&any_listed(list, random), symbols, random),
        15..=16 if held > 0 => of_words(list, letters, random),
        _ => {
            let length = random.within(1, 5);
            word(symbols, length, random)
        }
    }
}

/// A name to speak: as above, or of several words, listed ones among others or all of them listed.
pub fn spoken(list: &Exceptions, letters: &[u8], random: &mut Random) -> Vec<u8> {
    match random.below(3) {
        0 => of_words(list, letters, random),
        _ => name(list, letters, random),
    }
}

fn of_words(list: &Exceptions, letters: &[u8], random: &mut Random) -> Vec<u8> {
    let all = random.one_in(2);
    let words: Vec<Vec<u8>> = (0..random.within(2, 5))
        .map(|_| match random.below(3) {
            _ if list.phones.is_empty() => word(letters, random.below(3), random),
            0 if !all => word(letters, random.below(3), random),
            _ => any_listed(list, random),
        })
        .collect();
    let mut name = words.join(&SPACE);
    name.truncate(64);
    name
}

fn word(letters: &[u8], length: usize, random: &mut Random) -> Vec<u8> {
    (0..length).map(|_| random.pick(letters)).collect()
}

pub fn any_listed(list: &Exceptions, random: &mut Random) -> Vec<u8> {
    let at = random.below(list.phones.len());
    list.phones.keys().nth(at).expect("there are so many").clone()
}

/// Shares a prefix or an ending with this name.
fn near(name: &[u8], letters: &[u8], random: &mut Random) -> Vec<u8> {
    let mut near = name.to_vec();
    let at = random.below(name.len());
    match random.below(6) {
        0 => near.truncate(at),
        1 => drop(near.drain(..at)),
        2 => near.push(random.pick(letters)),
        3 => near.insert(0, random.pick(letters)),
        4 => near[at] = random.pick(letters),
        _ => drop(near.remove(at)),
    }
    near
}

/// Mostly one of few strings, so that names end alike; seldom none.
pub fn phones(random: &mut Random) -> Vec<u8> {
    match random.below(16) {
        0 => random.pick(&[&[][..], &[0], &[0x61, 0], &[0x61; 65], &[0x61; 200]]).to_vec(),
        1 => {
            let length = random.pick(&[1, 2, 3, 4, 63, 64]);
            (0..length).map(|_| random.within(1, 255) as u8).collect()
        }
        _ => random.pick(&[&[0x61][..], &[0x61], &[0x62], &[0x61, 0x62], &[0x61; 4], &[255; 64]]).to_vec(),
    }
}

/// A list that knows some of these names, words of them, or names near them; seldom memory that is none.
pub fn some_list(tally: &mut Tally, names: &[Vec<u8>], letters: &[u8], random: &mut Random) -> List {
    if random.one_in(30) {
        let words: Vec<u32> = (0..random.pick(&[0, 1, LIST - 1])).map(|_| random.next() as u32).collect();
        return List::lent(&words, random);
    }
    let mut list = List::empty(tally, random);
    for _ in 0..random.pick(&[0, 0, 1, 2, 4, 8]) {
        let name = if names.is_empty() { word(letters, 2, random) } else { random.pick_one(names).clone() };
        let entries = match random.below(4) {
            0 if !name.is_empty() => vec![near(&name, letters, random)],
            // All of its words, or one of them.
            1 => name.split(|byte| *byte == SPACE).map(<[u8]>::to_vec).collect(),
            2 => {
                let words: Vec<&[u8]> = name.split(|byte| *byte == SPACE).collect();
                vec![random.pick(&words).to_vec()]
            }
            _ => vec![name],
        };
        for entry in entries {
            lists::add(tally, &mut list, &Lent::new(&entry, random), &Lent::new(&phones(random), random));
        }
    }
    list
}

/// Words of a list, some of them overwritten. `used` are the places that matter most.
pub fn damaged(words: &[u32], used: &[usize], random: &mut Random) -> Vec<u32> {
    let mut damaged = words.to_vec();
    for _ in 0..random.pick(&[1, 1, 1, 2, 3, 10]) {
        let at = place(words.len(), used, random);
        let other = place(words.len(), used, random);
        match random.below(12) {
            0..=2 => damaged[at] ^= 1 << random.below(32),
            3 => damaged[at] = damaged[at].wrapping_add(1),
            4 => damaged[at] = damaged[at].wrapping_sub(1),
            5 => damaged[at] = random.pick(&[0, 1, 63, 64, 4_095, 4_096, 65_535, u32::MAX]),
            6 => damaged[at] = random.next() as u32,
            7 => damaged[at] = damaged[other],
            8 => damaged.swap(at, other),
            // One byte of it, in any order of the bytes.
            9 | 10 => {
                let shift = 8 * random.below(4);
                let byte = random.pick(&[0, 1, 5, 0x3F, 0x40, 0x61, 0x62, 0xFF]);
                damaged[at] = damaged[at] & !(0xFF << shift) | byte << shift;
            }
            // A row of words moved along by some.
            _ => {
                let length = random.within(1, 40).min(words.len() - at.max(other));
                damaged.copy_within(at..at + length, other);
            }
        }
    }
    damaged
}

fn place(words: usize, used: &[usize], random: &mut Random) -> usize {
    match random.below(10) {
        _ if used.is_empty() => random.below(words),
        0 => random.below(words),
        1 | 2 => (random.pick(used) + random.below(17)).saturating_sub(8).min(words - 1),
        _ => random.pick(used),
    }
}
