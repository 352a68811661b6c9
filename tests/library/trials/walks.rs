//! Walks through tables built, of another ruleset, of another edit count, damaged and random, with room for what
//! they say lent exactly, one too few and not at all.

use super::{lending, SELDOM};
use crate::lent::{self, Compiled, Heard, Lent, List, Room};
use crate::make::tables::{built, damaged, put_count, random as any_tables, stale, Words};
use crate::make::{images, lists, names, rules};
use crate::random::Random;
use crate::reference::ruleset::Ruleset;
use crate::tally::Tally;

pub fn walks(tally: &mut Tally, random: &mut Random) {
    let letters = rules::letters(random);
    let set = rules::ruleset(&letters, SELDOM, random);
    let image = Lent::new(&images::sound(&set, random), random);
    let sound = built(&set);
    let compiled = lend(&sound, random);
    let names: Vec<Vec<u8>> = (0..30).map(|_| names::name(&set, &letters, random)).collect();
    let list = lists::some_list(tally, &names, &letters, random);
    for name in &names[..6] {
        spoken(tally, &image, &list, &compiled, &Lent::new(name, random), random);
    }
    for names in names[6..].chunks(3) {
        let compiled = lend(&other_tables(&set, &letters, &sound, random), random);
        for name in names {
            spoken(tally, &image, &list, &compiled, &Lent::new(name, random), random);
        }
    }
}

/// Mostly with the edit count of the ruleset, so that what else they are shows.
fn other_tables(set: &Ruleset, letters: &[u8], sound: &Words, random: &mut Random) -> Words {
    let (mut words, sets) = match random.below(8) {
        0 => built(&rules::ruleset(letters, SELDOM, random)),
        1 => {
            // Tables of another history: the rules stand at other places.
            let mut other = set.clone();
            random.shuffle(&mut other.rules);
            built(&other)
        }
        2 | 3 => any_tables(set, random),
        4 => {
            let (words, sets) = (random.below(400), random.below(60));
            let words = (0..words).map(|_| random.below(4) as u16).collect();
            (words, (0..sets).map(|_| random.next()).collect())
        }
        _ => damaged(sound.clone(), random),
    };
    match random.below(4) {
        0 => stale(&mut words, set, random),
        _ => put_count(&mut words, set.edits),
    }
    (words, sets)
}

fn lend((words, sets): &Words, random: &mut Random) -> Compiled {
    Compiled::new(words, sets, random)
}

/// One name plainly and by the tables; then with as much room as each needs, or nearly.
fn spoken(
    tally: &mut Tally,
    image: &Lent<u8>,
    list: &List,
    compiled: &Compiled,
    name: &Lent<u8>,
    random: &mut Random,
) {
    let plain = lent::read_name(tally, image, list, name, &mut Room::any(256, 64, random));
    lent::read_name(tally, image, list, name, &mut room_near(plain, random));
    let (walked, _) = lent::speak(tally, image, list, compiled, name, &mut Room::any(256, 64, random));
    lent::speak(tally, image, list, compiled, name, &mut room_near(walked, random));
}

fn room_near(heard: Heard, random: &mut Random) -> Room {
    // A refusal 4 says what listed words need beyond the 256 that were lent.
    let (phones, numbers) = (lending(heard.given.min(2_048), random), lending(heard.applied.min(64), random));
    Room::any(phones, numbers, random)
}
