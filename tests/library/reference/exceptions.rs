//! The exceptions list of document 02: names with their phones, and how many states the smallest acyclic
//! automaton for them has. `list_words` tells how it stands in lent memory.

use super::broken::{broken, Break};
use super::reading::{sound_name, MOST_LETTERS};
use super::{refuse, Answer};
use std::collections::{BTreeMap, HashMap};

/// Words of 32 bits that a list's memory has at least.
pub const LIST: usize = 35_886;
pub const MOST_NAMES: usize = 1_000;
pub const MOST_STATES: usize = 4_096;
pub const MOST_PHONES: usize = 64;
/// The longest read-out.
pub const READ_OUT: usize = MOST_NAMES * (1 + MOST_LETTERS + 1 + MOST_PHONES);

/// A state as its successors and its phones make it: what has the same of both is the same state.
type Known<'a> = HashMap<(Option<&'a [u8]>, Vec<(u8, usize)>), usize>;

#[derive(Clone, Default, PartialEq, Debug)]
pub struct Exceptions {
    /// In letter order, a name before its continuations: the order of byte strings.
    pub phones: BTreeMap<Vec<u8>, Vec<u8>>,
}

impl Exceptions {
    /// Refusals 2, 1, 17 of the entry, 19.
    pub fn add(&mut self, name: &[u8], phones: &[u8]) -> Answer<()> {
        sound_entry(name, phones)?;
        if broken(Break::KeepPhones) && self.phones.contains_key(name) {
            return Ok(());
        }
        let before = self.phones.insert(name.to_vec(), phones.to_vec());
        self.within_or(name, before)
    }

    /// Refusals 2, 1, 18, 19.
    pub fn remove(&mut self, name: &[u8]) -> Answer<()> {
        sound_name(name)?;
        let Some(before) = self.phones.remove(name) else {
            return refuse(18, 0);
        };
        self.within_or(name, Some(before))
    }

    /// Puts back what stood for the name where the list is beyond its limits.
    fn within_or(&mut self, name: &[u8], before: Option<Vec<u8>>) -> Answer<()> {
        if self.within() {
            return Ok(());
        }
        match before {
            Some(phones) => self.phones.insert(name.to_vec(), phones),
            None => self.phones.remove(name),
        };
        refuse(19, 0)
    }

    fn within(&self) -> bool {
        let more = if broken(Break::OneMore) { 1 } else { 0 };
        self.phones.len() <= MOST_NAMES + more && self.states() <= MOST_STATES + more
    }

    /// The start is one of them, also where there are no names.
    pub fn states(&self) -> usize {
        let entries: Vec<(&[u8], &[u8])> =
            self.phones.iter().map(|(name, phones)| (name.as_slice(), phones.as_slice())).collect();
        let mut known = Known::new();
        state(&entries, 0, &mut known);
        known.len()
    }

    /// Length, letters, phone count, phones of each name.
    pub fn read_out(&self) -> Vec<u8> {
        let mut entries: Vec<(&Vec<u8>, &Vec<u8>)> = self.phones.iter().collect();
        if broken(Break::ShortFirst) {
            entries.sort_by_key(|(name, _)| name.len());
        }
        let mut bytes = Vec::new();
        for (name, phones) in entries {
            bytes.push(name.len() as u8);
            bytes.extend(name);
            bytes.push(phones.len() as u8);
            bytes.extend(phones);
        }
        bytes
    }
}

/// Refusals 2, 1, and 17 for no letters and for what is no phone string.
fn sound_entry(name: &[u8], phones: &[u8]) -> Answer<()> {
    sound_name(name)?;
    if name.is_empty() || phones.is_empty() || phones.len() > MOST_PHONES || phones.contains(&0) {
        return refuse(17, 0);
    }
    Ok(())
}

/// The state that the entries' common prefix of this length leads to. They are in order, so the one that
/// ends there is the first.
fn state<'a>(entries: &[(&'a [u8], &'a [u8])], depth: usize, known: &mut Known<'a>) -> usize {
    let (own, longer) = match entries {
        [(name, phones), rest @ ..] if name.len() == depth => (Some(*phones), rest),
        _ => (None, entries),
    };
    let mut successors: Vec<(u8, usize)> = longer
        .chunk_by(|one, other| one.0[depth] == other.0[depth])
        .map(|group| (group[0].0[depth], state(group, depth + 1, known)))
        .collect();
    if broken(Break::Unshared) {
        // No two states are the same: the letters before tell them apart.
        successors.push((0, known.len()));
    }
    let next = known.len();
    *known.entry((own, successors)).or_insert(next)
}
