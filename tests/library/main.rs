//! Tries the static library from outside, through host/pirrozketa.h, against an implementation of documents
//! 01 and 02 that was written from the papers; the layout of lent memory, which they leave free, is that of the
//! header and, of a list, of its specification. Run by tests/library/run.
//!
//!     --count N     rounds of random trials
//!     --seed S      the first round's seed; round k has seed S + k, so each can be repeated alone
//!     --break NAME  the reference is made wrong in this way: the trials must then fail
//!     --breaks      prints the names of those ways
//!
//! The last line says how many checks passed and failed; the exit is 1 if any failed or none were made.

mod fixed;
mod lent;
mod make;
mod random;
mod reference;
mod tally;
mod trials;

use reference::broken::{self, BREAKS};
use std::process::ExitCode;
use tally::Tally;

/// So many rounds bring up every outcome of damage; fewer are rounds repeated.
const ENOUGH: u64 = 200;

struct Wish {
    count: u64,
    seed: u64,
}

fn main() -> ExitCode {
    let Some(wish) = wish(std::env::args().skip(1)) else {
        eprintln!("usage: [--count N] [--seed S] [--break NAME] | --breaks");
        return ExitCode::from(2);
    };
    let mut tally = Tally::default();
    fixed::fixed(&mut tally);
    for round in 0..wish.count {
        trials::round(&mut tally, wish.seed.wrapping_add(round));
    }
    tally.trial = "all trials".to_string();
    // A reference that is wrong must be noticed by what it says, not by trials left out for it.
    if broken::whole() {
        tally.check_met(&lent::NAMED);
        if wish.count >= ENOUGH {
            tally.check_counted(&trials::damaged_lists::OUTCOMES);
        }
    }
    tally.print_counts();
    println!("{} passed, {} failed", tally.passed, tally.failed);
    ExitCode::from((tally.failed > 0 || tally.passed == 0) as u8)
}

fn wish(mut words: impl Iterator<Item = String>) -> Option<Wish> {
    let mut wish = Wish { count: 100, seed: 1 };
    while let Some(word) = words.next() {
        match word.as_str() {
            "--count" => wish.count = words.next()?.parse().ok()?,
            "--seed" => wish.seed = words.next()?.parse().ok()?,
            "--break" => broken::choose(&words.next()?).then_some(())?,
            "--breaks" => {
                BREAKS.iter().for_each(|(name, _)| println!("{name}"));
                std::process::exit(0);
            }
            _ => return None,
        }
    }
    Some(wish)
}
