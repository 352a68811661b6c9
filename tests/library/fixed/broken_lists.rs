//! Refusal 17 of lent words: lists written here by the layout of their specification. Each clause broken
//! alone must be refused; each limit just kept and free words changed must not.

use super::lists::refused_by_all;
use super::{letters, Loaded, SIX_RULES, SIX_SETS, SIX_WORDS};
use crate::lent::{lists as calls, Lent, List};
use crate::random::Random;
use crate::reference::exceptions::{Exceptions, LIST};
use crate::tally::Tally;

/// The cells of a state. States are numbered from 1, each after its successors; the last is the start.
type State = Vec<u32>;

pub fn broken_lists(tally: &mut Tally, random: &mut Random) {
    for (what, states, names) in sound() {
        accepted(tally, what, &laid(&states, random), &names, random);
    }
    free_words(tally, random);
    let six = Loaded::new(tally, SIX_RULES, SIX_WORDS, SIX_SETS, random);
    let broken = broken_states().into_iter().map(|(what, states)| (what, laid(&states, random)));
    let broken: Vec<(&str, Vec<u32>)> = broken.collect();
    for (what, words) in broken.into_iter().chain(broken_words(random)) {
        refused(tally, &six, what, &words, random);
    }
}

/// By the reference and by the library these words are this list, also when it is changed.
fn accepted(tally: &mut Tally, what: &str, words: &[u32], names: &Exceptions, random: &mut Random) {
    let mut list = List::lent(words, random);
    tally.check(list.held() == Some(names), || format!("by the reference: {what}"));
    let needed = names.read_out().len();
    for room in [needed, needed + 1, needed.saturating_sub(1)] {
        calls::read_out(tally, &list, &mut Lent::any(room, random));
    }
    calls::check(tally, &list);
    let (name, phones) = (Lent::new(&letters("ba"), random), Lent::new(&[0x7F], random));
    calls::add(tally, &mut list, &name, &phones);
    calls::check(tally, &list);
    for name in names.phones.keys().take(2) {
        calls::remove(tally, &mut list, &Lent::new(name, random));
        calls::check(tally, &list);
    }
}

fn refused(tally: &mut Tally, six: &Loaded, what: &str, words: &[u32], random: &mut Random) {
    let mut list = List::lent(words, random);
    tally.check(list.held().is_none(), || format!("taken by the reference: {what}"));
    let before = tally.failed;
    refused_by_all(tally, six, &mut list, random);
    let refused = tally.failed == before;
    tally.check(refused, || format!("not refused: {what}"));
}

// States and words --------------------------------------------------------------------------------------------

/// Successors at the places 01 to 3F; phones from place 40 on, three to a cell, the first lowest.
fn state(successors: &[(u8, u32)], phones: &[u8]) -> State {
    let mut cells: State = successors.iter().map(|(letter, next)| cell(*letter, *next)).collect();
    for (place, group) in (0x40..).zip(phones.chunks(3)) {
        cells.push(cell(place, group.iter().rev().fold(0, |value, phone| value << 8 | *phone as u32)));
    }
    cells
}

fn cell(place: u8, value: u32) -> u32 {
    (place as u32) << 24 | value
}

/// In memory that held anything: where each state's cells begin and the last's end, from word 0 on, none of
/// state 0; the start's number in word 4,199; the cells from word 4,200 on.
fn laid(states: &[State], random: &mut Random) -> Vec<u32> {
    let mut words: Vec<u32> = (0..LIST).map(|_| random.next() as u32).collect();
    lay(states, &mut words);
    words
}

fn lay(states: &[State], words: &mut [u32]) {
    let mut end = 4_200;
    words[0] = 4_200;
    words[1] = 4_200;
    words[4_199] = states.len() as u32;
    for (cells, ends) in states.iter().zip(2..) {
        words[end..end + cells.len()].copy_from_slice(cells);
        end += cells.len();
        words[ends] = end as u32;
    }
}

// Sound lists -------------------------------------------------------------------------------------------------

const LONG: [u8; 4] = [0x61, 0x62, 0x63, 0x64];
const SHORT: [u8; 1] = [0x70];
const A: u8 = 1;
const B: u8 = 2;
const C: u8 = 3;
const D: u8 = 4;

/// ab and cb with the same phones, and c: state 1 ends the first two, 2 goes on with b, 3 too and ends c.
fn three() -> Vec<State> {
    three_with(&LONG)
}

fn three_with(phones: &[u8]) -> Vec<State> {
    vec![state(&[], phones), state(&[(B, 1)], &[]), state(&[(B, 1)], &SHORT), state(&[(A, 2), (C, 3)], &[])]
}

fn three_names(phones: &[u8]) -> Exceptions {
    named([
        (letters("ab"), phones.to_vec()),
        (letters("c"), SHORT.to_vec()),
        (letters("cb"), phones.to_vec()),
    ])
}

fn named(names: impl IntoIterator<Item = (Vec<u8>, Vec<u8>)>) -> Exceptions {
    Exceptions { phones: names.into_iter().collect() }
}

/// Every name of a letter up to the first number, one up to the second and one up to the third.
fn layers(most: [u8; 3]) -> (Vec<State>, Exceptions) {
    let layer =
        |most: u8, next: u32| state(&(1..=most).map(|letter| (letter, next)).collect::<Vec<_>>(), &[]);
    let states = vec![state(&[], &SHORT), layer(most[2], 1), layer(most[1], 2), layer(most[0], 3)];
    let [firsts, seconds, thirds] = most.map(|most| 1..=most);
    let names = firsts.flat_map(|first| {
        let (seconds, thirds) = (seconds.clone(), thirds.clone());
        seconds.flat_map(move |second| thirds.clone().map(move |third| vec![first, second, third]))
    });
    (states, named(names.map(|name| (name, SHORT.to_vec()))))
}

/// One name of so many letters a.
fn chain(length: u32) -> (Vec<State>, Exceptions) {
    let mut states = vec![state(&[], &SHORT)];
    states.extend((1..=length).map(|next| state(&[(A, next)], &[])));
    (states, named([(vec![A; length as usize], SHORT.to_vec())]))
}

/// 63 names of 64 letters whose states are their own, 64 each; one that leaves the first after a letter and has
/// 62 more; then so many that leave the second after a letter, each with a state more: 4,095 and those.
fn chains(more: u8) -> (Vec<State>, Exceptions) {
    let mut states: Vec<State> = Vec::new();
    let mut names = Vec::new();
    // The states of a name's letters from its end on; the last one's number.
    let ends = |states: &mut Vec<State>, phones: &[u8], letter: u8, length: usize| {
        states.push(state(&[], phones));
        for _ in 1..length {
            let next = states.len() as u32;
            states.push(state(&[(letter, next)], &[]));
        }
        states.len() as u32
    };
    let branch = ends(&mut states, &[0x80], B, 62);
    names.push(([vec![A], vec![B; 62]].concat(), vec![0x80]));
    let others: Vec<(u8, u32)> = (1..=more)
        .map(|k| {
            names.push((vec![B, D + k], vec![0x90, k]));
            (D + k, ends(&mut states, &[0x90, k], B, 1))
        })
        .collect();
    let firsts: Vec<(u8, u32)> = (1..=63)
        .map(|letter| {
            names.push((vec![letter; 64], vec![letter]));
            let next = ends(&mut states, &[letter], letter, 63);
            // What goes on from the first letter, ascending.
            let successors = match letter {
                A => vec![(A, next), (B, branch)],
                B => [vec![(B, next)], others.clone()].concat(),
                _ => vec![(letter, next)],
            };
            states.push(state(&successors, &[]));
            (letter, states.len() as u32)
        })
        .collect();
    states.push(state(&firsts, &[]));
    (states, named(names))
}

fn sound() -> Vec<(&'static str, Vec<State>, Exceptions)> {
    let with = |what, (states, names): (Vec<State>, Exceptions)| (what, states, names);
    let most = [[0xFF; 63].as_slice(), &[1]].concat();
    vec![
        with("the empty list", (vec![], named([]))),
        with("three names", (three(), three_names(&LONG))),
        with("64 phones", (three_with(&most), three_names(&most))),
        with(
            "the letters 01 and 3F",
            (
                vec![state(&[], &LONG), state(&[(0x01, 1), (0x3F, 1)], &[])],
                named([(vec![0x01], LONG.to_vec()), (vec![0x3F], LONG.to_vec())]),
            ),
        ),
        with("1,000 names", layers([10, 10, 10])),
        with("64 letters", chain(64)),
        with("4,096 states", chains(1)),
    ]
}

/// What the layout says is free may hold anything, and so may words past the list.
fn free_words(tally: &mut Tally, random: &mut Random) {
    let (states, names) = (three(), three_names(&LONG));
    let cells: usize = states.iter().map(Vec::len).sum();
    let end = 4_200 + cells;
    let last = states.len() + 1;
    for fill in [0, 1, 4_200, u32::MAX] {
        let mut words = vec![fill; LIST + 3];
        lay(&states, &mut words);
        accepted(tally, "free words alike", &words, &names, random);
    }
    let mut words = vec![0; LIST];
    lay(&states, &mut words);
    // With another start the states after it are free, and those up to it are the list.
    for (start, names) in [(0, named([])), (2, named([(vec![B], LONG.to_vec())]))] {
        let mut earlier = words.clone();
        earlier[4_199] = start;
        accepted(tally, "an earlier start", &earlier, &names, random);
    }
    let beside = [last + 1, last + 2, 4_198, end, end + 1, LIST - 1];
    let others =
        (0..20)
            .map(|k| if k % 2 == 0 { random.within(last + 1, 4_198) } else { random.within(end, LIST - 1) });
    let places: Vec<usize> = beside.into_iter().chain(others).collect();
    for at in places {
        for other in [1, random.next() as u32 | 1] {
            let mut changed = words.clone();
            changed[at] = other;
            accepted(tally, &format!("free word {at} changed"), &changed, &names, random);
        }
    }
}

// Broken lists ------------------------------------------------------------------------------------------------

/// The three names with another state before the start, to which the start leads or not.
fn with_state(other: State, reached: bool) -> Vec<State> {
    let mut states = three();
    let mut start = states.pop().expect("it has a start");
    states.push(other);
    if reached {
        start.push(cell(D, 4));
    }
    states.push(start);
    states
}

/// The three names with more cells at the end of one state.
fn with_cells(number: usize, cells: &[u32]) -> Vec<State> {
    let mut states = three();
    states[number - 1].extend(cells);
    states
}

/// The three names with other cells for the phones of state 1.
fn with_groups(groups: &[(u8, u32)]) -> Vec<State> {
    let mut states = three();
    states[0] = groups.iter().map(|(place, value)| cell(*place, *value)).collect();
    states
}

/// Each clause of 17 about states, broken alone.
fn broken_states() -> Vec<(&'static str, Vec<State>)> {
    let mut circle_of_two = with_cells(2, &[cell(C, 3)]);
    circle_of_two[2] = state(&[(B, 1), (D, 2)], &SHORT);
    let no_name_twice = {
        let mut states = with_state(vec![], false);
        let start = states.pop().expect("it has a start");
        states.extend([state(&[(A, 4)], &[]), [start, vec![cell(D, 5)]].concat()]);
        states
    };
    let every_letter = |next: u32| state(&(1..=63).map(|letter| (letter, next)).collect::<Vec<_>>(), &[]);
    let many_names = [vec![state(&[], &SHORT)], (1..=20).map(every_letter).collect()].concat();
    let zero_letter = {
        let mut states = three();
        states[3].insert(0, cell(0, 1));
        states
    };
    vec![
        ("a successor past the start", with_cells(4, &[cell(D, 5)])),
        ("a successor far past the start", with_cells(4, &[cell(D, 0xFF_FFFF)])),
        ("a state that leads to itself", with_cells(2, &[cell(C, 2)])),
        ("the start leads to itself", with_cells(4, &[cell(D, 4)])),
        ("a circle of two states", circle_of_two),
        ("a successor after its state", with_cells(2, &[cell(C, 3)])),
        ("a state that is not reached", with_state(state(&[(D, 1)], &[]), false)),
        ("a state that ends a name and is not reached", with_state(state(&[], &[0x71]), false)),
        ("a state that leads to no name", with_state(vec![], true)),
        ("two states that lead to no name", no_name_twice),
        ("a start that leads to no name", vec![vec![]]),
        ("two equal states that end a name", with_state(state(&[], &LONG), true)),
        ("two equal states that go on", with_state(state(&[(B, 1)], &[]), true)),
        ("two equal states that do both", with_state(state(&[(B, 1)], &SHORT), true)),
        ("1,001 names", layers([7, 11, 13]).0),
        ("63 to the 20th names", many_names),
        ("65 letters", chain(65).0),
        ("4,000 letters", chain(4_000).0),
        ("4,097 states", chains(2).0),
        ("65 phones", three_with(&[0x61; 65])),
        ("66 phones", three_with(&[0x61; 66])),
        ("a phone 00 first", three_with(&[0, 0x61])),
        ("a phone 00 inside a group", three_with(&[0x61, 0, 0x62])),
        ("a phone 00 before a group", three_with(&[0x61, 0x62, 0, 0x63])),
        ("a phone 00 first in a group", three_with(&[0x61, 0x62, 0x63, 0, 0x64])),
        ("no phones", with_groups(&[(0x40, 0)])),
        ("a group of no phones after others", with_groups(&[(0x40, 0x63_6261), (0x41, 0)])),
        ("a start that ends a name", with_cells(4, &[cell(0x40, 0x61)])),
        ("the letter 00", zero_letter),
        ("a place past the phones", with_cells(1, &[cell(0x56, 1)])),
        ("the highest place", with_cells(1, &[cell(0xFF, 1)])),
        ("no successor under a letter", with_cells(4, &[cell(D, 0)])),
        ("a letter twice", with_cells(4, &[cell(C, 2)])),
        ("letters not in order", with_cells(4, &[cell(B, 2)])),
        ("phones that skip a group", with_groups(&[(0x40, 0x63_6261), (0x42, 0x64)])),
        ("phones without their first group", with_groups(&[(0x41, 0x61)])),
        ("a letter after the phones", with_cells(3, &[cell(C, 1)])),
    ]
}

/// The clauses about the words themselves.
fn broken_words(random: &mut Random) -> Vec<(&'static str, Vec<u32>)> {
    let words = laid(&three(), random);
    let with = |at: usize, word: u32| {
        let mut other = words.clone();
        other[at] = word;
        other
    };
    let mut moved = words.clone();
    moved.copy_within(4_200..4_300, 4_201);
    moved[..6].iter_mut().for_each(|begin| *begin += 1);
    let mut cells_of_none = moved.clone();
    cells_of_none[0] = 4_200;
    cells_of_none[4_200] = cell(0x40, 0x71);
    vec![
        ("a word less than a list has", words[..LIST - 1].to_vec()),
        ("the words up to the last cell", words[..words[5] as usize].to_vec()),
        ("cells that begin before their place", with(0, 4_199)),
        ("cells that begin after their place", with(0, 4_201)),
        ("cells a word further on", moved),
        ("cells of state 0", cells_of_none),
        ("cells that end before they begin", with(2, words[3] + 1)),
        ("cells that end past the words", with(5, LIST as u32 + 1)),
        ("cells that end far past the words", with(5, u32::MAX)),
        ("a start far past the states", with(4_199, 4_190)),
        ("a start past all words", with(4_199, u32::MAX)),
    ]
}
