//! Memory of exceptions lists overwritten: by its layout the reference tells what it is then.

use super::full_lists::{some_full, FULL};
use super::lists::{few_letters, one_change, some_read_out, Speakers};
use crate::lent::{lists, List};
use crate::make::lists as make;
use crate::random::Random;
use crate::reference::broken::at_bounds;
use crate::reference::exceptions::LIST;
use crate::tally::Tally;

/// What an overwritten list came to. Each must come up: else 17 said too often or too seldom could pass.
pub const OUTCOMES: [&str; 3] =
    ["damaged lists refused", "damaged lists that are the same", "damaged lists that are others"];

/// A list's memory overwritten: it is refused then, the same list or another.
pub fn damaged(tally: &mut Tally, random: &mut Random) {
    let letters = few_letters(random);
    let speakers = Speakers::new(tally, &letters, random);
    let mut list = some_words(tally, &letters, random);
    let used: Vec<usize> = (0..list.len()).filter(|at| list.words()[*at] != 0).collect();
    for _ in 0..random.within(1, 6) {
        let words = match random.below(30) {
            0 => list.words()[..random.pick(&[0, 1, 100, LIST - 1]).min(list.len())].to_vec(),
            1 => [list.words(), &[random.next() as u32; 5]].concat(),
            2 => vec![random.pick(&[0, 1, 2, u32::MAX]); LIST],
            3 => (0..LIST).map(|_| random.next() as u32).collect(),
            _ if list.len() < LIST => vec![0; LIST],
            _ => make::damaged(list.words(), &used, random),
        };
        let before = list.held().cloned();
        list = List::lent(&words, random);
        let [refused, same, other] = OUTCOMES;
        tally.count(match list.held() {
            None => refused,
            held if held == before.as_ref() => same,
            Some(_) => other,
        });
        lists::check(tally, &list);
        if random.one_in(2) {
            speakers.speak(tally, &list, random);
        }
        some_read_out(tally, &list, random);
        for _ in 0..random.below(4) {
            one_change(tally, &mut list, &letters, random);
            lists::check(tally, &list);
            some_read_out(tally, &list, random);
        }
    }
    lists::clear(tally, &mut list);
    lists::check(tally, &list);
    one_change(tally, &mut list, &letters, random);
    some_read_out(tally, &list, random);
}

/// A list of some names in memory that was zero, so that what it uses can be seen; seldom a full one.
fn some_words(tally: &mut Tally, letters: &[u8], random: &mut Random) -> List {
    if at_bounds() && random.one_in(FULL) {
        return some_full(tally, random);
    }
    let mut list = List::lent(&vec![0; LIST], random);
    lists::clear(tally, &mut list);
    for _ in 0..random.pick(&[0, 1, 3, 10, 30]) {
        one_change(tally, &mut list, letters, random);
    }
    list
}
