//! Cases that stand in documents 01 and 02 or at the bounds they name.

mod broken_lists;
mod classes;
mod contested;
mod contexts;
mod extremes;
mod header;
mod lists;
mod paper;
mod refusals;
mod sheets;
mod stale;
mod threads;
mod words;
mod wrong;

use crate::lent::{self, Compiled, Heard, Lent, List, Room};
use crate::random::Random;
use crate::reference::image::IMAGE;
use crate::reference::rule::{Rule, SPACE};
use crate::reference::ACCEPTED;
use crate::tally::Tally;

type Case = fn(&mut Tally, &mut Random);

pub fn fixed(tally: &mut Tally) {
    let random = &mut Random::new(1);
    let cases: [(&str, Case); 14] = [
        ("the header's sizes", header::header),
        ("the paper's marks", paper::paper),
        ("the paper's refusals", refusals::refusals),
        ("the paper's ways to be wrong", wrong::wrong),
        ("extremes", extremes::extremes),
        ("exceptions lists", lists::lists),
        ("exceptions lists in words", broken_lists::broken_lists),
        ("names of several words", words::words),
        ("contested letters", contested::contested),
        ("letter classes", classes::classes),
        ("tables from before an edit", stale::stale),
        ("contexts of four", contexts::contexts),
        ("sheets", sheets::sheets),
        ("threads", threads::threads),
    ];
    for (subject, case) in cases {
        tally.trial = subject.to_string();
        case(tally, random);
    }
}

/// A ruleset that the library read from a rule file, and the tables that it built then; the empty list.
struct Loaded {
    image: Lent<u8>,
    compiled: Compiled,
    list: List,
}

/// What the library says of one name.
#[derive(PartialEq, Debug)]
enum Spoken {
    Said { phones: Vec<u8>, numbers: Vec<u16>, steps: usize, contested: usize },
    Refused { number: u8, place: usize, steps: usize },
}

impl Loaded {
    fn new(tally: &mut Tally, text: &[u8], words: usize, sets: usize, random: &mut Random) -> Loaded {
        let mut image = Lent::any(IMAGE, random);
        let mut compiled = Compiled::any(words, sets, random);
        lent::read_file(tally, &Lent::new(text, random), &mut image);
        lent::build(tally, &image, &mut compiled);
        Loaded { image, compiled, list: List::empty(tally, random) }
    }

    /// Lists a name as typed.
    fn list(&mut self, tally: &mut Tally, name: &str, phones: &[u8], random: &mut Random) {
        let (name, phones) = (Lent::new(&letters(name), random), Lent::new(phones, random));
        lent::lists::add(tally, &mut self.list, &name, &phones);
    }

    /// Speaks a name by these tables, with room for so many phones and numbers.
    fn speak_by(
        &self,
        tally: &mut Tally,
        compiled: &Compiled,
        name: &[u8],
        (phones, numbers): (usize, usize),
        random: &mut Random,
    ) -> Spoken {
        let (name, mut room) = (Lent::new(name, random), Room::any(phones, numbers, random));
        let (heard, steps) = lent::speak(tally, &self.image, &self.list, compiled, &name, &mut room);
        Spoken::new(heard, steps, &room)
    }

    /// Speaks a name by the tables; the plain reading must say the same.
    fn speak(
        &self,
        tally: &mut Tally,
        name: &[u8],
        phones: usize,
        numbers: usize,
        random: &mut Random,
    ) -> Spoken {
        let name = Lent::new(name, random);
        let mut room = Room::any(phones, numbers, random);
        let (heard, steps) = lent::speak(tally, &self.image, &self.list, &self.compiled, &name, &mut room);
        let mut plain_room = Room::any(phones, numbers, random);
        let plain = lent::read_name(tally, &self.image, &self.list, &name, &mut plain_room);
        tally.equal("walk and plain reading", heard, plain);
        Spoken::new(heard, steps, &room)
    }
}

impl Spoken {
    fn said(phones: &[u8], numbers: &[u16], steps: usize, contested: usize) -> Spoken {
        Spoken::Said { phones: phones.to_vec(), numbers: numbers.to_vec(), steps, contested }
    }

    fn refused(number: u8, place: usize, steps: usize) -> Spoken {
        Spoken::Refused { number, place, steps }
    }

    fn new(heard: Heard, steps: usize, room: &Room) -> Spoken {
        if heard.code != ACCEPTED {
            return Spoken::Refused { number: heard.code, place: heard.given, steps };
        }
        let (phones, numbers) = room.contents();
        let phones = phones.iter().copied().take(heard.given).collect();
        let numbers = numbers.iter().copied().take(heard.applied).collect();
        Spoken::Said { phones, numbers, steps, contested: heard.contested }
    }
}

/// Adds the rule of these parts before place p, and gives the library's code.
fn add(tally: &mut Tally, image: &mut Lent<u8>, parts: [&[u8]; 4], p: usize, random: &mut Random) -> u8 {
    let rule = Rule::new(parts).expect("the parts are short enough");
    lent::add(tally, image, &Lent::new(&rule.0, random), p)
}

/// "a is 01, b is 02, up to z, 1A"; the space bar is 3F.
fn letters(name: &str) -> Vec<u8> {
    name.bytes().map(|typed| if typed == b' ' { SPACE } else { typed - b'a' + 1 }).collect()
}

const SIX_RULES: &[u8] = b"010100060006F2
02000101010100000B0EE1
020002000100010B6B84
020003000101000500F4
0200040002000105056984
0200050001000105658D
020006000100010E6E7A
";

/// L = 2 and R = 8 for the six rules.
const SIX_WORDS: usize = 644;
const SIX_SETS: usize = 80;
