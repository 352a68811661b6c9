//! Edits at sound and unsound places and numbers, on rulesets and on memory that is none.

use super::SELDOM;
use crate::lent::{self, Lent, Room};
use crate::make::{classes, images, lists, names, rules};
use crate::random::Random;
use crate::reference::file::LONGEST;
use crate::reference::image::{decode, last, IMAGE};
use crate::tally::Tally;

/// A row of edits on one memory, from a cleared one or from any ruleset.
pub fn edits(tally: &mut Tally, random: &mut Random) {
    let letters = rules::letters(random);
    let mut image = if random.one_in(2) {
        let length = IMAGE + random.below(20);
        let mut image = Lent::any(length, random);
        lent::clear(tally, &mut image);
        image
    } else {
        let set = rules::ruleset(&letters, 4, random);
        Lent::new(&images::sound(&set, random), random)
    };
    for _ in 0..random.within(1, 40) {
        one_edit(tally, &mut image, &letters, random);
        lent::check(tally, &image);
    }
}

fn one_edit(tally: &mut Tally, image: &mut Lent<u8>, letters: &[u8], random: &mut Random) {
    let set = decode(image.contents()).unwrap_or_default();
    let held = set.rules.len();
    // Mostly a number of the list; also 0, `last`, what follows it, and any.
    let number = match random.below(8) {
        0 => 0,
        1 => last(image.contents()),
        2 => last(image.contents()).wrapping_add(1),
        3 => random.next() as u16,
        _ if held > 0 => random.pick(&set.rules).0,
        _ => 1,
    };
    let p = match random.below(8) {
        0 => held,
        1 => held + 1,
        2 => held.saturating_sub(1),
        3 => random.pick(&[usize::MAX, 512, 513, 65_536, 1 << 32]),
        _ => random.below(held + 1),
    };
    match random.below(12) {
        0..=4 => {
            let rule = rules::any_rule(letters, &set, random);
            lent::add(tally, image, &Lent::new(&rule, random), p)
        }
        5..=6 => lent::drop(tally, image, number),
        7..=8 => {
            let (symbol, some) = classes::setting(&set, letters, random);
            lent::set_class(tally, image, symbol, &Lent::new(&some, random))
        }
        _ => lent::shift(tally, image, number, p),
    };
}

/// Every call on memory that is damaged: most of it no ruleset.
pub fn images(tally: &mut Tally, random: &mut Random) {
    let letters = rules::letters(random);
    let set = rules::ruleset(&letters, SELDOM, random);
    let mut image = Lent::new(&images::damaged(&set, random), random);
    lent::check(tally, &image);
    one_edit(tally, &mut image, &letters, random);

    let mut out = Lent::any(random.pick(&[0, 15, LONGEST]), random);
    lent::write_file(tally, &image, &mut out);
    let mut compiled = lent::Compiled::any(random.below(1000), random.below(100), random);
    lent::build(tally, &image, &mut compiled);
    let name = names::name(&set, &letters, random);
    let list = lists::some_list(tally, std::slice::from_ref(&name), &letters, random);
    let name = Lent::new(&name, random);
    lent::read_name(tally, &image, &list, &name, &mut Room::any(256, 64, random));
    lent::speak(tally, &image, &list, &compiled, &name, &mut Room::any(256, 64, random));
    let many = Lent::new(&names::many(&set, &letters, random), random);
    let (mut room, mut replies) = (Room::any(256, 64, random), Lent::any(48, random));
    lent::speak_many(tally, &image, &list, &compiled, &many, &mut room, &mut replies);

    // Cleared, any memory that is long enough is a ruleset; its slots keep their contents.
    lent::clear(tally, &mut image);
    lent::check(tally, &image);
}
