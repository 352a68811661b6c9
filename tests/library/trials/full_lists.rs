//! Exceptions lists about their limits of 1,000 names and 4,096 states.

use super::lists::{one_change, some_read_out, Speakers};
use crate::lent::{lists, Lent, List};
use crate::random::Random;
use crate::reference::broken::at_bounds;
use crate::reference::exceptions::{Exceptions, MOST_NAMES, MOST_STATES};
use crate::tally::Tally;
use std::sync::OnceLock;

/// A list about its limits: words that the library made, and the list that was made so.
struct Full {
    words: Vec<u32>,
    held: Exceptions,
    letters: &'static [u8],
}

/// In one of so many rounds a list is full: it takes the most time.
pub const FULL: usize = 20;

/// Changes of a list that has nearly 1,000 names or 4,096 states.
pub fn full(tally: &mut Tally, random: &mut Random) {
    if !at_bounds() || !random.one_in(FULL) {
        return;
    }
    let full = random.pick_one(full_lists(tally));
    let mut list = List::known(&full.words, &full.held, random);
    some_read_out(tally, &list, random);
    for _ in 0..random.within(1, 20) {
        match list.held().filter(|held| held.states() + 70 > MOST_STATES) {
            Some(held) if random.one_in(2) => {
                let (name, phones) = just_enough(held, random);
                lists::add(tally, &mut list, &Lent::new(&name, random), &Lent::new(&phones, random));
            }
            _ => one_change(tally, &mut list, full.letters, random),
        }
        lists::check(tally, &list);
    }
    some_read_out(tally, &list, random);
    Speakers::new(tally, full.letters, random).speak(tally, &list, random);
}

pub fn some_full(tally: &mut Tally, random: &mut Random) -> List {
    let full = random.pick_one(full_lists(tally));
    List::known(&full.words, &full.held, random)
}

/// A name with phones of its own that adds as many states as there is room for, or one more.
fn just_enough(held: &Exceptions, random: &mut Random) -> (Vec<u8>, Vec<u8>) {
    let room = MOST_STATES - held.states() + random.pick(&[0, 0, 1]);
    let mut name = vec![random.within(1, 60) as u8];
    name.extend((0..room.clamp(1, 63)).map(|_| random.within(1, 63) as u8));
    (name, (0..5).map(|_| random.within(1, 255) as u8).collect())
}

/// Made once, by the trial that first needs them: 999 names of three of ten letters; 62 or so names of 64
/// letters beside nine that share.
fn full_lists(tally: &mut Tally) -> &'static [Full] {
    static LISTS: OnceLock<Vec<Full>> = OnceLock::new();
    LISTS.get_or_init(|| {
        let random = &mut Random::new(7);
        let mut names = made(tally, random, &[1, 2, 3, 4, 5, 6, 7, 8, 9, 10]);
        let of_ten = |k: usize, random: &mut Random| {
            let name = [k / 100, k / 10 % 10, k % 10].map(|digit| 1 + digit as u8);
            (name.to_vec(), random.pick(&[&[0x61][..], &[0x61, 0x62]]).to_vec())
        };
        fill(tally, &mut names, (0..MOST_NAMES - 1).map(|k| of_ten(k, random)));

        let mut states = made(tally, random, &[61, 62]);
        let shared = (0..9).map(|k| (vec![61 + k / 3, 61 + k % 3], vec![0x61]));
        let own = (0..64).map(|k| {
            let mut name = vec![1 + k % 60; 64];
            name[1..].fill_with(|| random.within(1, 63) as u8);
            (name, vec![0x80, 1 + k])
        });
        fill(tally, &mut states, shared.chain(own).collect::<Vec<_>>());
        vec![names, states]
    })
}

/// The empty list, by the library.
fn made(tally: &mut Tally, random: &mut Random, letters: &'static [u8]) -> Full {
    let list = List::empty(tally, random);
    Full { words: list.words().to_vec(), held: Exceptions::default(), letters }
}

/// Filled by the library.
fn fill(tally: &mut Tally, full: &mut Full, entries: impl IntoIterator<Item = (Vec<u8>, Vec<u8>)>) {
    let random = &mut Random::new(8);
    let mut list = List::known(&full.words, &full.held, random);
    for (name, phones) in entries {
        lists::add(tally, &mut list, &Lent::new(&name, random), &Lent::new(&phones, random));
    }
    lists::check(tally, &list);
    full.words = list.words().to_vec();
    full.held = list.held().cloned().unwrap_or_default();
}
