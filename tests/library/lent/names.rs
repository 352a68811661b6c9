//! Names read plainly, spoken by the tables, and many in one call.

use super::binding::*;
use super::lists::List;
use super::memory::Lent;
use super::tables::Compiled;
use super::UNWRITTEN;
use crate::random::Random;
use crate::reference::exceptions::Exceptions;
use crate::reference::many::{self, Many, REPLY};
use crate::reference::reading::{plain, Said};
use crate::reference::ruleset::Ruleset;
use crate::reference::walk::walk;
use crate::reference::{image as layout, refuse, Answer, ACCEPTED};
use crate::tally::Tally;

/// Room for phones and rule numbers.
pub struct Room {
    pub phones: Lent<u8>,
    pub numbers: Lent<u16>,
}

impl Room {
    pub fn any(phones: usize, numbers: usize, random: &mut Random) -> Room {
        Room { phones: Lent::any(phones, random), numbers: Lent::any(numbers, random) }
    }

    /// Room that holds zeros, so that what two calls gave can be compared whole.
    pub fn blank(phones: usize, numbers: usize, random: &mut Random) -> Room {
        Room { phones: Lent::new(&vec![0; phones], random), numbers: Lent::new(&vec![0; numbers], random) }
    }

    pub fn contents(&self) -> (&[u8], &[u16]) {
        (self.phones.contents(), self.numbers.contents())
    }

    pub fn want(&mut self, phones: &[u8], numbers: &[u16]) {
        self.phones.want(phones);
        self.numbers.want(numbers);
    }

    pub fn check(&self, tally: &mut Tally, call: &str) {
        self.phones.check(tally, &format!("{call}'s phones"));
        self.numbers.check(tally, &format!("{call}'s numbers"));
    }

    /// The answer as it is wanted; what is said is from then on wanted here.
    fn taken(&mut self, answer: &Answer<Said>) -> Heard {
        match answer {
            Ok(said) => {
                self.want(&said.phones, &said.numbers);
                let (given, applied) = (said.phones.len(), said.numbers.len());
                Heard { code: ACCEPTED, given, applied, contested: said.contested }
            }
            Err(refused) => Heard { code: refused.number, given: refused.place, applied: 0, contested: 0 },
        }
    }
}

/// What the library answered to a name.
#[derive(Clone, Copy, PartialEq, Debug)]
pub struct Heard {
    pub code: u8,
    pub given: usize,
    pub applied: usize,
    pub contested: usize,
}

/// The ruleset and the list that are lent; 0 comes before 17, and both before all else.
pub fn judged<'a>(image: &Lent<u8>, list: &'a List) -> Answer<(Ruleset, &'a Exceptions)> {
    match (layout::decode(image.contents()), list.held()) {
        (None, _) => refuse(0, 0),
        (_, None) => refuse(17, 0),
        (Some(set), Some(listed)) => Ok((set, listed)),
    }
}

pub fn read_name(
    tally: &mut Tally,
    image: &Lent<u8>,
    list: &List,
    name: &Lent<u8>,
    room: &mut Room,
) -> Heard {
    let heard = read(tally, image, list, name.pointer(), name.contents(), room);
    name.check(tally, "read_name's name");
    heard
}

/// Reads a name that lies in the image itself, as two slices that are only read may.
pub fn read_own_bytes(
    tally: &mut Tally,
    image: &Lent<u8>,
    list: &List,
    start: usize,
    length: usize,
    room: &mut Room,
) {
    let name = &image.contents()[start..start + length];
    read(tally, image, list, name.as_ptr(), name, room);
}

fn read(
    tally: &mut Tally,
    image: &Lent<u8>,
    list: &List,
    at: *const u8,
    name: &[u8],
    room: &mut Room,
) -> Heard {
    let (phones_lent, numbers_lent) = (room.phones.len(), room.numbers.len());
    let answer =
        judged(image, list).and_then(|(set, listed)| plain(&set, listed, name, phones_lent, numbers_lent));
    let wanted = room.taken(&answer);
    let (mut given, mut applied, mut contested) = (UNWRITTEN, UNWRITTEN, UNWRITTEN);
    let code = unsafe {
        pirrozketa_read_name(
            image.pointer(),
            image.len(),
            list.pointer(),
            list.len(),
            at,
            name.len(),
            room.phones.pointer_mut(),
            phones_lent,
            room.numbers.pointer_mut(),
            numbers_lent,
            &mut given,
            &mut applied,
            &mut contested,
        )
    };
    let heard = Heard { code, given, applied, contested };
    tally.answer("read_name", code, heard, wanted);
    image.check(tally, "read_name's image");
    list.check(tally, "read_name's list");
    room.check(tally, "read_name");
    heard
}

/// Gives the library's answer with its steps.
pub fn speak(
    tally: &mut Tally,
    image: &Lent<u8>,
    list: &List,
    compiled: &Compiled,
    name: &Lent<u8>,
    room: &mut Room,
) -> (Heard, usize) {
    let (words, sets) = (&compiled.words, &compiled.sets);
    let (phones_lent, numbers_lent) = (room.phones.len(), room.numbers.len());
    let (answer, wanted_steps) = match judged(image, list) {
        Ok((set, listed)) => {
            let (words, sets) = (words.contents(), sets.contents());
            walk(&set, listed, words, sets, name.contents(), phones_lent, numbers_lent)
        }
        Err(refused) => (Err(refused), 0),
    };
    let wanted = room.taken(&answer);
    let (mut given, mut applied) = (UNWRITTEN, UNWRITTEN);
    let (mut steps, mut contested) = (UNWRITTEN, UNWRITTEN);
    let code = unsafe {
        pirrozketa_speak(
            image.pointer(),
            image.len(),
            list.pointer(),
            list.len(),
            words.pointer(),
            words.len(),
            sets.pointer(),
            sets.len(),
            name.pointer(),
            name.len(),
            room.phones.pointer_mut(),
            phones_lent,
            room.numbers.pointer_mut(),
            numbers_lent,
            &mut given,
            &mut applied,
            &mut steps,
            &mut contested,
        )
    };
    let heard = Heard { code, given, applied, contested };
    tally.answer("speak", code, heard, wanted);
    tally.equal("speak's steps", steps, wanted_steps);
    image.check(tally, "speak's image");
    list.check(tally, "speak's list");
    compiled.check(tally, "speak");
    name.check(tally, "speak's name");
    room.check(tally, "speak");
    (heard, steps)
}

pub fn speak_many(
    tally: &mut Tally,
    image: &Lent<u8>,
    list: &List,
    compiled: &Compiled,
    names: &Lent<u8>,
    room: &mut Room,
    replies: &mut Lent<usize>,
) {
    let (words, sets) = (&compiled.words, &compiled.sets);
    let (phones_lent, numbers_lent) = (room.phones.len(), room.numbers.len());
    let (wanted_code, wanted) = match judged(image, list) {
        Ok((set, listed)) => {
            let (words, sets) = (words.contents(), sets.contents());
            let (names, replies) = (names.contents(), replies.len());
            let many = many::speak_many(&set, listed, words, sets, names, phones_lent, numbers_lent, replies);
            (ACCEPTED, many)
        }
        Err(refused) => (refused.number, Many::default()),
    };
    room.want(&wanted.phones, &wanted.numbers);
    replies.want(&wanted.replies);
    let mut count = UNWRITTEN;
    let code = unsafe {
        pirrozketa_speak_many(
            image.pointer(),
            image.len(),
            list.pointer(),
            list.len(),
            words.pointer(),
            words.len(),
            sets.pointer(),
            sets.len(),
            names.pointer(),
            names.len(),
            room.phones.pointer_mut(),
            phones_lent,
            room.numbers.pointer_mut(),
            numbers_lent,
            replies.pointer_mut(),
            replies.len(),
            &mut count,
        )
    };
    tally.answer("speak_many", code, (code, count), (wanted_code, wanted.replies.len() / REPLY));
    for (reply, wanted) in replies.contents().chunks(REPLY).zip(wanted.replies.chunks(REPLY)) {
        tally.answer("speak_many's reply", reply[0] as u8, reply, wanted);
    }
    image.check(tally, "speak_many's image");
    list.check(tally, "speak_many's list");
    compiled.check(tally, "speak_many");
    names.check(tally, "speak_many's names");
    room.check(tally, "speak_many");
    replies.check(tally, "speak_many's replies");
}
