//! Random trials, one subject a file. A round tries every subject once.

mod chain;
pub mod damaged_lists;
mod edits;
mod files;
mod full_lists;
mod lists;
mod many;
mod sheets;
mod tables;
mod walks;

use crate::random::Random;
use crate::tally::Tally;

type Trial = fn(&mut Tally, &mut Random);

const TRIALS: [(&str, Trial); 12] = [
    ("edits", edits::edits),
    ("images", edits::images),
    ("files", files::files),
    ("files and their tables", files::reads_and_builds),
    ("tables", tables::tables),
    ("walks", walks::walks),
    ("many", many::many),
    ("chain", chain::chain),
    ("lists", lists::changes),
    ("full lists", full_lists::full),
    ("damaged lists", damaged_lists::damaged),
    ("sheets", sheets::sheets),
];

/// A round has a seed of its own, so that it can be repeated alone.
pub fn round(tally: &mut Tally, seed: u64) {
    for (k, (subject, trial)) in TRIALS.iter().enumerate() {
        tally.trial = format!("--seed {seed} --count 1, {subject}");
        trial(tally, &mut Random::new(seed ^ (k as u64) << 56));
    }
}

/// In one of so many cases a ruleset is long: those take the most time.
const SELDOM: usize = 40;

/// How much to lend where so much is needed: exactly, too little, more, none.
fn lending(needed: usize, random: &mut Random) -> usize {
    match random.below(8) {
        0 => needed.saturating_sub(1),
        1 => 0,
        2 => random.below(needed + 1),
        3 | 4 => needed + random.within(1, 50),
        _ => needed,
    }
}
