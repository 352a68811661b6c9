//! Files written, read back, and read when damaged; and read with the tables built next.

use super::{lending, SELDOM};
use crate::lent::{self, Compiled, Lent};
use crate::make::{files, images, rules};
use crate::random::Random;
use crate::reference::image::IMAGE;
use crate::reference::ruleset::Ruleset;
use crate::reference::{file, tables};
use crate::tally::Tally;

pub fn files(tally: &mut Tally, random: &mut Random) {
    let set = some_ruleset(random);
    let image = Lent::new(&images::sound(&set, random), random);
    let needed = file::write(&set).len();
    let mut out = Lent::any(lending(needed, random), random);
    lent::write_file(tally, &image, &mut out);

    // What the library wrote is what it reads, into memory that held anything.
    let mut out = Lent::any(needed, random);
    lent::write_file(tally, &image, &mut out);
    let mut copy = some_image(random);
    lent::read_file(tally, &out, &mut copy);
    let mut again = Lent::any(needed, random);
    lent::write_file(tally, &copy, &mut again);
    lent::check(tally, &copy);

    for _ in 0..6 {
        let damaged = Lent::new(&files::damaged(out.contents(), random), random);
        lent::read_file(tally, &damaged, &mut some_image(random));
    }
}

/// What a host does first: a file is read, and the tables are built of what the memory holds then.
pub fn reads_and_builds(tally: &mut Tally, random: &mut Random) {
    let set = some_ruleset(random);
    let built = tables::build(&set);
    let mut text = file::write(&set);
    if random.one_in(3) {
        text = files::damaged(&text, random);
    }
    let text = Lent::new(&text, random);
    let (words, sets) = (lending(built.words.len(), random), lending(built.sets.len(), random));
    let mut compiled = Compiled::any(words, sets, random);
    let mut image = some_image(random);
    lent::read_file(tally, &text, &mut image);
    lent::build(tally, &image, &mut compiled);
}

fn some_ruleset(random: &mut Random) -> Ruleset {
    let letters = rules::letters(random);
    rules::ruleset(&letters, SELDOM, random)
}

/// Memory to read into: any length about the needed one, or another ruleset.
fn some_image(random: &mut Random) -> Lent<u8> {
    let set = some_ruleset(random);
    match random.below(6) {
        0 => Lent::any(random.pick(&[0, 4, IMAGE - 1]), random),
        1 => Lent::new(&images::sound(&set, random), random),
        2 => Lent::any(IMAGE + random.below(30), random),
        _ => Lent::any(IMAGE, random),
    }
}
