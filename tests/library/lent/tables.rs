//! The build, and the words and set words lent to it.

use super::binding::pirrozketa_build;
use super::memory::Lent;
use super::{code_and_place, UNWRITTEN};
use crate::random::Random;
use crate::reference::tables::{self, Tables};
use crate::reference::{image as layout, refuse, Answer};
use crate::tally::Tally;

pub struct Compiled {
    pub words: Lent<u16>,
    pub sets: Lent<u64>,
}

impl Compiled {
    /// Memory that held anything.
    pub fn any(words: usize, sets: usize, random: &mut Random) -> Compiled {
        Compiled { words: Lent::any(words, random), sets: Lent::any(sets, random) }
    }

    pub fn new(words: &[u16], sets: &[u64], random: &mut Random) -> Compiled {
        Compiled { words: Lent::new(words, random), sets: Lent::new(sets, random) }
    }

    /// The build's answer for these tables; where there is room, they are from then on wanted here.
    pub fn taken(&mut self, built: &Tables) -> Answer<usize> {
        tables::room(built, self.words.len(), self.sets.len())?;
        self.words.want(&built.words);
        self.sets.want(&built.sets);
        Ok(0)
    }

    pub fn check(&self, tally: &mut Tally, call: &str) {
        self.words.check(tally, &format!("{call}'s words"));
        self.sets.check(tally, &format!("{call}'s set words"));
    }
}

pub fn build(tally: &mut Tally, image: &Lent<u8>, compiled: &mut Compiled) {
    let wanted = match layout::decode(image.contents()) {
        Some(set) => compiled.taken(&tables::build(&set)),
        None => refuse(0, 0),
    };
    let mut place = UNWRITTEN;
    let (words, sets) = (&mut compiled.words, &mut compiled.sets);
    let code = unsafe {
        pirrozketa_build(
            image.pointer(),
            image.len(),
            words.pointer_mut(),
            words.len(),
            sets.pointer_mut(),
            sets.len(),
            &mut place,
        )
    };
    tally.answer("build", code, (code, place), code_and_place(&wanted));
    image.check(tally, "build's image");
    compiled.check(tally, "build");
}
