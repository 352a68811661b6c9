//! Demand 3 from outside: a list of edits from the empty list, the tables built after it, and a name;
//! the walk and the plain reading are alike, with any exceptions. Here the library is held against itself
//! as well. Further edits follow: the tables from before them are good only where none of them counted.

use crate::lent::{self, Compiled, Lent, List, Room};
use crate::make::{classes, lists, names, rules};
use crate::random::Random;
use crate::reference::image::{decode, IMAGE};
use crate::reference::ruleset::Ruleset;
use crate::reference::tables::build;
use crate::tally::Tally;

pub fn chain(tally: &mut Tally, random: &mut Random) {
    let letters = rules::letters(random);
    let mut image = Lent::any(IMAGE, random);
    lent::clear(tally, &mut image);
    // The same list by the reference alone: the image must not stray from it edit by edit.
    let mut ledger = Ruleset::default();
    for _ in 0..random.within(1, 60) {
        one_edit(tally, &mut image, &mut ledger, &letters, random);
    }
    held_so(tally, &image, &ledger);
    let compiled = built(tally, &image, &ledger, random);
    let names: Vec<Vec<u8>> = (0..8).map(|_| names::name(&ledger, &letters, random)).collect();
    let list = lists::some_list(tally, &names, &letters, random);
    for name in &names {
        alike(tally, &image, &list, &compiled, name, random);
    }

    let before = ledger.edits;
    for _ in 0..random.within(1, 3) {
        one_edit(tally, &mut image, &mut ledger, &letters, random);
    }
    held_so(tally, &image, &ledger);
    if ledger.edits == before {
        alike(tally, &image, &list, &compiled, &names[0], random);
    } else {
        for name in &names {
            let name = Lent::new(name, random);
            lent::speak(tally, &image, &list, &compiled, &name, &mut Room::any(256, 64, random));
        }
        let compiled = built(tally, &image, &ledger, random);
        alike(tally, &image, &list, &compiled, &names[0], random);
    }
}

/// By the library and by the reference.
fn one_edit(
    tally: &mut Tally,
    image: &mut Lent<u8>,
    ledger: &mut Ruleset,
    letters: &[u8],
    random: &mut Random,
) {
    let number = random.below(ledger.last as usize + 2) as u16;
    let p = random.below(ledger.rules.len() + 2);
    match random.below(9) {
        0 => {
            lent::drop(tally, image, number);
            let _ = ledger.drop(number);
        }
        1 => {
            lent::shift(tally, image, number, p);
            let _ = ledger.shift(number, p);
        }
        2 => {
            let (symbol, some) = classes::setting(ledger, letters, random);
            lent::set_class(tally, image, symbol, &Lent::new(&some, random));
            let _ = ledger.set_class(symbol, &some);
        }
        _ => {
            let rule = rules::any_rule(letters, ledger, random);
            lent::add(tally, image, &Lent::new(&rule, random), p);
            let _ = ledger.add(&rule, p);
        }
    }
}

fn held_so(tally: &mut Tally, image: &Lent<u8>, ledger: &Ruleset) {
    let order = |set: &Ruleset| set.rules.iter().map(|(number, _)| *number).collect::<Vec<u16>>();
    let held = decode(image.contents()).unwrap_or_default();
    tally.equal("the edits' numbers in order", order(&held), order(ledger));
    tally.equal("the edits' last", held.last, ledger.last);
    tally.equal("the edits' classes", held.classes, ledger.classes.clone());
    tally.equal("the edits' count", held.edits, ledger.edits);
}

fn built(tally: &mut Tally, image: &Lent<u8>, ledger: &Ruleset, random: &mut Random) -> Compiled {
    let tables = build(ledger);
    let mut compiled = Compiled::any(tables.words.len(), tables.sets.len(), random);
    lent::build(tally, image, &mut compiled);
    compiled
}

fn alike(
    tally: &mut Tally,
    image: &Lent<u8>,
    list: &List,
    compiled: &Compiled,
    name: &[u8],
    random: &mut Random,
) {
    let name = Lent::new(name, random);
    let (phones, numbers) = (random.pick(&[0, 3, 256, 256, 256]), random.pick(&[0, 3, 64, 64, 64]));
    let mut plain = Room::blank(phones, numbers, random);
    let mut walked = Room::blank(phones, numbers, random);
    let read = lent::read_name(tally, image, list, &name, &mut plain);
    let (spoken, _) = lent::speak(tally, image, list, compiled, &name, &mut walked);
    tally.equal("walk and plain reading", (spoken, walked.contents()), (read, plain.contents()));
}
