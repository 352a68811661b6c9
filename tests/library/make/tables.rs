//! Words and set words for a walk: built, damaged, random, and with another edit count.

use super::rules::edits;
use crate::random::Random;
use crate::reference::ruleset::Ruleset;
use crate::reference::tables::{build, count_words, sets_needed, words_needed, L, R, ROWS};

pub type Words = (Vec<u16>, Vec<u64>);

pub fn built(set: &Ruleset) -> Words {
    let tables = build(set);
    (tables.words, tables.sets)
}

/// Built tables, altered in one way, with their edit count. What lies past the needed words may be anything.
pub fn damaged((mut words, mut sets): Words, random: &mut Random) -> Words {
    let states = words[L].max(words[R]) as usize;
    match random.below(12) {
        // Without some of their bits the sets choose later rules that fit as well, or none.
        0 | 1 => sets.iter_mut().for_each(|word| *word &= random.next() | random.next()),
        // Bits more choose rules that do not fit, and places past the list.
        2 => scatter(&mut sets, random, |word, random| *word |= 1 << random.below(64)),
        3 => scatter(&mut sets, random, |word, random| *word ^= 1 << random.below(64)),
        // Places more in every set, past the list too, are shared at every letter.
        10 | 11 => {
            let (place, share) = (random.below(512), random.pick(&[1, 1, 2]));
            for word in sets.iter_mut().skip(place / 64).step_by(8) {
                *word |= (random.one_in(share) as u64) << (place % 64);
            }
        }
        // Other entries, most of them of states there are.
        4 => scatter(&mut words[ROWS..], random, |entry, random| {
            *entry = random.below(states + 1) as u16;
        }),
        5 => scatter(&mut words[ROWS..], random, |entry, random| *entry = random.next() as u16),
        6 => {
            let side = random.pick(&[L, R]);
            words[side] = random.pick(&[0, 1, words[side].wrapping_sub(1), words[side] + 1, 65_535]);
        }
        7 => words.truncate(random.pick(&[0, 1, 2, ROWS - 1, ROWS, 67, words.len() - 2, words.len() - 1])),
        8 => sets.truncate(random.pick(&[0, 1, sets.len() - 1])),
        _ => {
            words.extend((0..random.within(1, 100)).map(|_| random.next() as u16));
            sets.extend((0..random.within(1, 20)).map(|_| random.next()));
        }
    }
    (words, sets)
}

/// The count of these edits in place of the words' own, as far as the words go.
pub fn put_count(words: &mut [u16], edits: u32) {
    words.iter_mut().zip(count_words(edits)).for_each(|(word, count)| *word = count);
}

/// Another edit count in the words: the one before or after, of other bits in either word, any. Of the words
/// exchanged it may be the same.
pub fn stale(words: &mut [u16], set: &Ruleset, random: &mut Random) {
    let other = match random.below(6) {
        0 => set.edits.wrapping_sub(1),
        1 => set.edits.wrapping_add(1),
        2 => set.edits ^ 1 << random.below(16),
        3 => set.edits ^ 1 << random.within(16, 31),
        4 => set.edits.rotate_left(16),
        _ => edits(random),
    };
    put_count(words, other);
}

/// Few states, entries mostly among them, and sets of few or many places; with the ruleset's edit count.
pub fn random(set: &Ruleset, random: &mut Random) -> Words {
    let (left, right) = (random.within(1, 6), random.within(1, 6));
    let wild = random.one_in(3);
    let mut words = count_words(set.edits).to_vec();
    words.extend([left as u16, right as u16]);
    for row in 0..left + right {
        let states = if row < left { left } else { right };
        let above = if wild && random.one_in(3) { 1 } else { 0 };
        words.extend((0..64).map(|_| random.below(states + above) as u16));
    }
    let places = set.literal_total() + if wild { 1 } else { 0 };
    let mut sets = vec![0; sets_needed(left, right)];
    for state in sets.chunks_mut(8) {
        for _ in 0..random.below(40) {
            let place = random.below(places.max(1)).min(511);
            state[place / 64] |= 1 << (place % 64);
        }
    }
    debug_assert_eq!(words.len(), words_needed(left, right));
    if random.one_in(8) {
        words.iter_mut().skip(ROWS).for_each(|entry| *entry = random.next() as u16);
    }
    (words, sets)
}

fn scatter<T>(items: &mut [T], random: &mut Random, mut alter: impl FnMut(&mut T, &mut Random)) {
    for _ in 0..random.pick(&[1, 4, items.len() / 8 + 1]) {
        let at = random.below(items.len());
        alter(&mut items[at], random);
    }
}
