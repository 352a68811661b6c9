//! Tables built into exactly enough, too little, too much and no memory, whatever it held.

use super::{lending, SELDOM};
use crate::lent::{self, Compiled, Lent};
use crate::make::{images, rules};
use crate::random::Random;
use crate::reference::tables::build;
use crate::tally::Tally;

pub fn tables(tally: &mut Tally, random: &mut Random) {
    let letters = rules::letters(random);
    let set = rules::ruleset(&letters, SELDOM, random);
    let image = Lent::new(&images::sound(&set, random), random);
    let built = build(&set);
    let (words, sets) = (built.words.len(), built.sets.len());

    let mut compiled = Compiled::any(words, sets, random);
    lent::build(tally, &image, &mut compiled);
    // Built tables, built again, stay as they are.
    lent::build(tally, &image, &mut compiled);
    for (words, sets) in [(words - 1, sets), (words, sets - 1), (words - 1, sets - 1), (0, 0)] {
        lent::build(tally, &image, &mut Compiled::any(words, sets, random));
    }
    let (words, sets) = (lending(words, random), lending(sets, random));
    lent::build(tally, &image, &mut Compiled::any(words, sets, random));
}
