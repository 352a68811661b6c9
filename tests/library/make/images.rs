//! Rulesets as memory: sound, damaged, or anything.

use super::rules::{edits, too_long, SOME_LENGTHS};
use crate::random::Random;
use crate::reference::classes::CLASSES;
use crate::reference::image::{put, EDITS, HEAD, IMAGE, LITERAL, LITERALS, MASK, MASKS, NUMBER, SLOT, TOTAL};
use crate::reference::rule::{LENGTHS, RULE, SPACE};
use crate::reference::ruleset::Ruleset;

/// A sound image. What lies past its rules, past its literal rules and past its length may be anything.
pub fn sound(set: &Ruleset, random: &mut Random) -> Vec<u8> {
    let past = random.pick(&[0, 0, 1, 37]);
    let mut image = random.bytes(IMAGE + past);
    put(set, &mut image);
    image
}

/// Damaged in one way; it may still be a ruleset, for the reference judges it.
pub fn damaged(set: &Ruleset, random: &mut Random) -> Vec<u8> {
    let mut image = sound(set, random);
    let held = set.rules.len();
    let used = HEAD + SLOT * held;
    let slot = HEAD + SLOT * random.below(held.max(1));
    let rule = slot + NUMBER;
    match random.below(20) {
        0 => flip(&mut image[..used], random),
        1 => flip(&mut image[slot..slot + SLOT], random),
        2 => image.truncate(random.pick(&[0, 1, 3, 4, 7, HEAD, used.min(IMAGE - 1), IMAGE - 1])),
        3 => {
            let other = HEAD + SLOT * random.below(held.max(1));
            image.copy_within(other..other + NUMBER, slot);
        }
        4 => put_field(&mut image, slot, set.last.wrapping_add(1)),
        5 => put_field(&mut image, slot, 0),
        6 => put_field(&mut image, 0, random.pick(&[512, 513, 514, 1024, 32_768, 65_535])),
        7 => put_field(&mut image, 0, (held + random.within(1, 3)) as u16),
        8 => put_field(&mut image, 2, random.below(held + 2) as u16),
        9 => image[rule + random.below(LENGTHS)] = random.pick(&SOME_LENGTHS),
        10 => {
            let at = rule + random.within(LENGTHS, RULE - 1);
            image[at] = random.pick(&[0x00, SPACE, SPACE, 0x40, 0x5F, 0x60, 0xFF])
        }
        11 => image = random.bytes(IMAGE),
        12 | 13 => damage_mask(&mut image, random),
        14 | 15 => damage_table(&mut image, set.literal_total(), random),
        16 => flip(&mut image[MASKS..], random),
        // Any edit count is one.
        17 => image[EDITS..HEAD].copy_from_slice(&edits(random).to_be_bytes()),
        18 => too_long(&mut image[rule..rule + RULE], random),
        _ => {
            // A sound count over random rules.
            image = random.bytes(IMAGE);
            put_field(&mut image, 0, random.below(3) as u16);
        }
    }
    image
}

/// A class undefined, of other letters or bits of none, of 32 letters and of 33, or another's.
fn damage_mask(image: &mut [u8], random: &mut Random) {
    let (at, other) = (MASKS + MASK * random.below(CLASSES), MASKS + MASK * random.below(CLASSES));
    let bits = match random.below(6) {
        0 => 0,
        1 => 1 | random.next(),
        2 => 1 << 63,
        3 => (1 << 33) - 2,
        4 => (1 << 34) - 2,
        _ => return image.copy_within(other..other + MASK, at),
    };
    image[at..at + MASK].copy_from_slice(&bits.to_be_bytes());
}

/// The literal total, or the place or number of a literal rule; what lies past the last is not judged.
fn damage_table(image: &mut [u8], total: usize, random: &mut Random) {
    let at = LITERALS + LITERAL * random.below((total + 1).min(512));
    match random.below(5) {
        0 => put_field(image, TOTAL, random.pick(&[0, 1, 512, 513, 65_535])),
        1 => put_field(image, TOTAL, (total as u16).wrapping_add(random.pick(&[1, u16::MAX]))),
        2 => put_field(image, at, random.pick(&[0, 1, 511, 512, 65_535])),
        3 => put_field(image, at + 2, random.pick(&[0, 1, 31, 511, 65_535])),
        _ => flip(&mut image[at..at + LITERAL], random),
    }
}

fn flip(bytes: &mut [u8], random: &mut Random) {
    let at = random.below(bytes.len());
    bytes[at] ^= 1 << random.below(8);
}

fn put_field(image: &mut [u8], at: usize, value: u16) {
    image[at..at + 2].copy_from_slice(&value.to_be_bytes());
}
