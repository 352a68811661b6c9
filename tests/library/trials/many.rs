//! Many names in one call, with room for all, for some, and for none.

use super::{lending, SELDOM};
use crate::lent::{self, Compiled, Lent, Room};
use crate::make::tables::{built, damaged, stale};
use crate::make::{images, lists, names, rules};
use crate::random::Random;
use crate::reference::exceptions::Exceptions;
use crate::reference::many::speak_many;
use crate::tally::Tally;

pub fn many(tally: &mut Tally, random: &mut Random) {
    let letters = rules::letters(random);
    let set = rules::ruleset(&letters, SELDOM, random);
    let image = Lent::new(&images::sound(&set, random), random);
    let (mut words, mut sets) = built(&set);
    if random.one_in(3) {
        (words, sets) = damaged((words, sets), random);
    }
    if random.one_in(5) {
        stale(&mut words, &set, random);
    }
    let compiled = Compiled::new(&words, &sets, random);
    for _ in 0..4 {
        let names = names::many(&set, &letters, random);
        let list = lists::some_list(tally, &names::split(&names), &letters, random);
        let none = Exceptions::default();
        let listed = list.held().unwrap_or(&none);
        let all = speak_many(&set, listed, &words, &sets, &names, usize::MAX, usize::MAX, usize::MAX);
        let (phones, numbers) = (lending(all.phones.len(), random), lending(all.numbers.len(), random));
        let mut room = Room::any(phones, numbers, random);
        let mut replies = Lent::any(lending(all.replies.len(), random), random);
        let names = Lent::new(&names, random);
        lent::speak_many(tally, &image, &list, &compiled, &names, &mut room, &mut replies);
    }
}
