//! The exceptions list in lent words and refusal 17 of them, by the layout that crates/exceptions/specs/Layout.antt
//! and crates/automaton/specs/Automaton.antt give, with the rules on states as document 02 words them.

use super::broken::{broken, Break};
use super::exceptions::{Exceptions, LIST, MOST_NAMES, MOST_PHONES, MOST_STATES};
use super::reading::MOST_LETTERS;
use std::collections::{BTreeMap, HashSet};

/// Words 0 to n + 1 tell where the cells of the states 0 to n begin, and where those of state n end.
/// This word holds n, the number of the start, and the cells follow it.
const START: usize = 4_199;
const CELLS: usize = START + 1;

/// A cell is a place times 2 to the 24th, and what stands there: a successor at the places 01 to 3F, its
/// letters; phones from place 40 on, three to a cell, the first in the lowest byte.
const PHONES: u32 = 0x40;
const PLACES: u32 = PHONES + 22;

#[derive(PartialEq, Eq, Hash)]
struct State {
    successors: Vec<(u8, usize)>,
    phones: Vec<u8>,
}

/// What the words list; None where they are no list: refusal 17.
pub fn listed_in(words: &[u32]) -> Option<Exceptions> {
    let words = match words.get(..LIST) {
        None if broken(Break::ShortList) => words,
        whole => whole?,
    };
    let more = if broken(Break::OneMore) { 1 } else { 0 };
    let start = *words.get(START)? as usize;
    if start > MOST_STATES + more {
        return None;
    }
    let begins: Vec<usize> = words[..start + 2].iter().map(|word| *word as usize).collect();
    let end = begins[start + 1];
    if begins[..2] != [CELLS; 2] || !begins.is_sorted() || end > words.len() {
        return None;
    }
    if broken(Break::FreeWords)
        && [&words[start + 2..START], &words[end..]].concat().iter().any(|word| *word != 0)
    {
        return None;
    }
    let states: Option<Vec<State>> =
        (1..=start).map(|number| state(number, &words[begins[number]..begins[number + 1]])).collect();
    let states = states?;
    let names = names(&states, more)?;
    (minimal(&states) && (broken(Break::EmptyListed) || !names.contains_key(&[][..])))
        .then_some(Exceptions { phones: names })
}

/// A state of this number: its successors have lower ones, so that none is outside and there is no circle.
fn state(number: usize, cells: &[u32]) -> Option<State> {
    let (mut successors, mut phones) = (Vec::new(), Vec::new());
    let mut least = if broken(Break::LetterZero) { 0 } else { 1 };
    for (place, value) in cells.iter().map(|cell| (cell >> 24, cell & 0xFF_FFFF)) {
        if !(least..PLACES).contains(&place) || value == 0 {
            return None;
        }
        least = place + 1;
        if place >= PHONES {
            // Groups follow one another.
            if (place - PHONES) as usize * 3 != phones.len() {
                return None;
            }
            phones.extend(&value.to_le_bytes()[..3]);
        } else if (value as usize) < number {
            successors.push((place as u8, value as usize));
        } else if !broken(Break::LaterSuccessor) {
            return None;
        }
    }
    while phones.last() == Some(&0) {
        phones.pop();
    }
    let long = phones.len() > MOST_PHONES && !broken(Break::LongPhones);
    let silent = phones.contains(&0) && !broken(Break::ZeroPhone);
    (!long && !silent).then_some(State { successors, phones })
}

/// No two states alike, so that no two have the same endings with the same phones: their successors come
/// before them. Every state leads to a name, and but for the start is reached from it.
fn minimal(states: &[State]) -> bool {
    let mut known = HashSet::new();
    let apart = states.iter().all(|state| known.insert(state));
    let leads = states.iter().all(|state| !state.successors.is_empty() || !state.phones.is_empty());
    let mut reached = vec![false; states.len() + 1];
    reached[states.len()] = true;
    for number in (1..=states.len()).rev() {
        if reached[number] {
            states[number - 1].successors.iter().for_each(|(_, successor)| reached[*successor] = true);
        }
    }
    (apart || broken(Break::AlikeStates))
        && (leads || broken(Break::DeadState))
        && (reached[1..].iter().all(|reached| *reached) || broken(Break::UnreachedState))
}

/// The names from the start, the last state, with their phones; None where they are too many or too long.
fn names(states: &[State], more: usize) -> Option<BTreeMap<Vec<u8>, Vec<u8>>> {
    let most = MOST_LETTERS + if broken(Break::LongListed) { 1 } else { 0 };
    let (mut counts, mut lengths) = (vec![0usize], vec![0]);
    for state in states {
        let named = !state.phones.is_empty() as usize;
        let total = state.successors.iter().fold(named, |sum, (_, next)| sum.saturating_add(counts[*next]));
        let longest = state.successors.iter().map(|(_, next)| 1 + lengths[*next]).max();
        counts.push(total);
        lengths.push(longest.unwrap_or(0));
    }
    if counts[states.len()] > MOST_NAMES + more || lengths[states.len()] > most {
        return None;
    }
    let mut names = BTreeMap::new();
    collect(states, states.len(), &mut Vec::new(), &mut names);
    Some(names)
}

/// The names that go on from a state after these letters; state 0 has none.
fn collect(states: &[State], number: usize, letters: &mut Vec<u8>, names: &mut BTreeMap<Vec<u8>, Vec<u8>>) {
    let Some(state) = number.checked_sub(1).map(|k| &states[k]) else {
        return;
    };
    if !state.phones.is_empty() {
        names.insert(letters.clone(), state.phones.clone());
    }
    for (letter, successor) in &state.successors {
        letters.push(*letter);
        collect(states, *successor, letters, names);
        letters.pop();
    }
}
