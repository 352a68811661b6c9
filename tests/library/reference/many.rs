//! Many names in one call, as the header tells it.

use super::exceptions::Exceptions;
use super::reading::Said;
use super::ruleset::Ruleset;
use super::walk::walk;
use super::{Answer, ACCEPTED};

#[derive(Default, Debug)]
pub struct Many {
    pub phones: Vec<u8>,
    pub numbers: Vec<u16>,
    pub replies: Vec<usize>,
}

/// Code, phones given or place, numbers given, steps, contested letters.
pub const REPLY: usize = 5;

impl Many {
    /// What the names so far leave of so many phones and numbers.
    pub fn left(&self, phones_lent: usize, numbers_lent: usize) -> (usize, usize) {
        (phones_lent - self.phones.len(), numbers_lent - self.numbers.len())
    }

    /// One name more is answered.
    pub fn answer(&mut self, answer: Answer<Said>, steps: usize) {
        match answer {
            Ok(said) => {
                let (phones, numbers) = (said.phones.len(), said.numbers.len());
                self.replies.extend([ACCEPTED as usize, phones, numbers, steps, said.contested]);
                self.phones.extend(said.phones);
                self.numbers.extend(said.numbers);
            }
            Err(refused) => self.replies.extend([refused.number as usize, refused.place, 0, steps, 0]),
        }
    }
}

/// Each name is lent what the names before it left of the phones and numbers.
pub fn speak_many(
    set: &Ruleset,
    list: &Exceptions,
    words: &[u16],
    sets: &[u64],
    names: &[u8],
    phones_lent: usize,
    numbers_lent: usize,
    replies_lent: usize,
) -> Many {
    let mut many = Many::default();
    let mut rest = names;
    while let Some((&length, after)) = rest.split_first() {
        let cut_off = after.len() < length as usize;
        if cut_off || many.replies.len() + REPLY > replies_lent {
            break;
        }
        let (name, following) = after.split_at(length as usize);
        rest = following;
        let (phones_left, numbers_left) = many.left(phones_lent, numbers_lent);
        let (answer, steps) = walk(set, list, words, sets, name, phones_left, numbers_left);
        many.answer(answer, steps);
    }
    many
}
