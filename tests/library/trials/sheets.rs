//! Sheets of names that begin alike, with room for all, for some and for none, and with memory to work in that is too short or not zero.

use super::{lending, SELDOM};
use crate::lent::{self, Compiled, Lent, Room, Work};
use crate::make::tables::{built, damaged, stale};
use crate::make::{images, lists, rules, sheets as make};
use crate::random::Random;
use crate::reference::exceptions::Exceptions;
use crate::reference::many::{speak_many, REPLY};
use crate::reference::sheet::{kept_needed, tree_needed};
use crate::tally::Tally;

pub fn sheets(tally: &mut Tally, random: &mut Random) {
    let letters = rules::letters(random);
    let set = rules::ruleset(&letters, SELDOM, random);
    let image = match random.one_in(16) {
        true => images::damaged(&set, random),
        false => images::sound(&set, random),
    };
    let image = Lent::new(&image, random);
    let (mut words, mut sets) = built(&set);
    if random.one_in(4) {
        (words, sets) = damaged((words, sets), random);
    }
    if random.one_in(8) {
        stale(&mut words, &set, random);
    }
    let compiled = Compiled::new(&words, &sets, random);
    for _ in 0..4 {
        let names = make::names(&set, &letters, random);
        let list = lists::some_list(tally, &names, &letters, random);
        let none = Exceptions::default();
        let listed = list.held().unwrap_or(&none);
        let sheet = make::sheet(&names, random);
        let all = speak_many(&set, listed, &words, &sets, &sheet, usize::MAX, usize::MAX, usize::MAX);
        let (phones, numbers) = (lending(all.phones.len(), random), lending(all.numbers.len(), random));
        let mut room = Room::any(phones, numbers, random);
        let needed = REPLY * names.len();
        let mut replies = Lent::any(
            if random.one_in(12) { lending(needed, random) } else { needed + random.below(9) },
            random,
        );
        let mut work = work(sheet.len(), random);
        let sheet = Lent::new(&sheet, random);
        lent::speak_sheet(tally, &image, &list, &compiled, &sheet, &mut room, &mut replies, &mut work);
    }
}

/// Mostly as a sheet of so many bytes needs it; else too short, or with an item that is not zero.
fn work(sheet: usize, random: &mut Random) -> Work {
    let more = random.pick(&[0, 0, 1, 40]);
    if !random.one_in(8) {
        return Work::of(sheet, more, random);
    }
    let (mut tree, mut kept) = (vec![0; tree_needed(sheet) + more], vec![0; kept_needed(sheet) + more]);
    for _ in 0..random.within(1, 2) {
        match random.below(4) {
            0 => tree.truncate(lending(tree_needed(sheet), random)),
            1 => kept.truncate(lending(kept_needed(sheet), random)),
            2 => hurt(&mut tree, 1 << random.below(16), random),
            _ => hurt(&mut kept, 1 << random.below(32), random),
        }
    }
    Work::new(&tree, &kept, random)
}

fn hurt<T>(items: &mut [T], value: T, random: &mut Random) {
    if let Some(last) = items.len().checked_sub(1) {
        let at = random.below(items.len());
        items[random.pick(&[0, last, at, at])] = value;
    }
}
