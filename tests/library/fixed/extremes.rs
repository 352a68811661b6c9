//! The bounds: the longest file, the greatest tables, the most states that words can count, the longest
//! name, and a history that issues every number.

use super::{Loaded, Spoken};
use crate::lent::{self, Compiled, Lent, Room};
use crate::random::Random;
use crate::reference::classes::SYMBOLS;
use crate::reference::file;
use crate::reference::image::{edits, last, put, IMAGE, SLOT};
use crate::reference::rule::{Rule, CONTEXT, PHONES, TARGET};
use crate::reference::ruleset::Ruleset;
use crate::reference::tables::{sets_needed, words_needed, MOST_LEFT, MOST_RIGHT};
use crate::tally::Tally;

pub fn extremes(tally: &mut Tally, random: &mut Random) {
    greatest(tally, random);
    too_many(tally, random);
    every_place(tally, random);
    most_states(tally, random);
    longest_name(tally, random);
    every_number(tally, random);
}

/// 512 rules of full length whose patterns share no more than they must. There are only 63 first symbols,
/// so this is the most: the paper's bounds on the states hold, but no ruleset reaches them.
fn greatest(tally: &mut Tally, random: &mut Random) {
    let inner: Vec<u8> = (1..CONTEXT as u8 - 1).collect();
    let rules = (0..512).map(|k| {
        let (first, second) = ((k % 63) as u8, 1 + (k / 63) as u8);
        let left = [&[first, second], &inner[..]].concat();
        let right = [&inner[..], &[second, first]].concat();
        let rule = Rule::new([&left, &[5, 6, 7, 0x3E], &right, &[255; PHONES]]);
        (65_535 - k, rule.expect("the parts are short enough"))
    });
    let mut set = Ruleset { last: 65_535, rules: rules.collect(), ..Ruleset::default() };
    for (symbol, first) in SYMBOLS.zip((1..=31).cycle()) {
        set.classes.set(symbol, &(first..first + 32).collect::<Vec<u8>>());
    }
    let text = file::write(&set);
    tally.equal("the longest file", text.len(), file::LONGEST);

    let (left, right) = (1 + 63 + 512 * (CONTEXT - 1), 1 + 63 + 512 * (CONTEXT + TARGET - 1));
    let (words, sets) = (words_needed(left, right), sets_needed(left, right));
    let loaded = Loaded::new(tally, &text, words, sets, random);
    tally.equal("L and R", loaded.compiled.words.contents()[2..4].to_vec(), vec![left as u16, right as u16]);
    Loaded::new(tally, &text, words - 1, sets, random);
    Loaded::new(tally, &text, words, sets - 1, random);
    // As much as is ever to be lent.
    let (words, sets) = (words_needed(MOST_LEFT, MOST_RIGHT), sets_needed(MOST_LEFT, MOST_RIGHT));
    Loaded::new(tally, &text, words, sets, random);
    for room in [file::LONGEST - 1, file::LONGEST, file::LONGEST + 1] {
        lent::write_file(tally, &loaded.image, &mut Lent::any(room, random));
    }
    let mut longer = text.clone();
    longer.extend(file::line(&[2, 0, 1, 0, 1, 0, 0, 5]));
    lent::read_file(tally, &Lent::new(&longer, random), &mut Lent::any(IMAGE, random));
}

/// A 513th rule is none, however sound it and the memory that holds it are.
fn too_many(tally: &mut Tally, random: &mut Random) {
    let rule = Rule::new([&[], &[5], &[], &[]]).expect("the parts are short enough");
    for count in [512, 513, 600] {
        let rules = (1..=count).map(|number| (number, rule)).collect();
        let mut image = random.bytes(IMAGE + SLOT * 600);
        put(&Ruleset { last: count, rules, ..Ruleset::default() }, &mut image);
        let mut image = Lent::new(&image, random);
        lent::check(tally, &image);
        lent::write_file(tally, &image, &mut Lent::any(file::LONGEST, random));
        lent::shift(tally, &mut image, count, 0);
        lent::drop(tally, &mut image, count);
    }
}

/// 512 rules of two letters each, and names in which every one of them is the only one that fits.
fn every_place(tally: &mut Tally, random: &mut Random) {
    let targets: Vec<[u8; 2]> = (0..512).map(|k| [1 + (k / 32) as u8, 0x1F + (k % 32) as u8]).collect();
    let rules = targets.iter().zip(1..).map(|(target, number)| {
        (number, Rule::new([&[], target, &[], &[target[1]]]).expect("the parts are short enough"))
    });
    let set = Ruleset { last: 512, rules: rules.collect(), ..Ruleset::default() };
    // The right strings are the empty one, 32 second letters, and 512 targets reversed.
    let (words, sets) = (words_needed(1, 545), sets_needed(1, 545));
    let loaded = Loaded::new(tally, &file::write(&set), words, sets, random);
    for (row, named) in targets.chunks(32).enumerate() {
        let said = loaded.speak(tally, &named.concat(), 32, 32, random);
        let phones: Vec<u8> = (0x1F..0x3F).collect();
        let numbers: Vec<u16> = (1..=32).map(|k| 32 * row as u16 + k).collect();
        tally.equal("every place", said, Spoken::said(&phones, &numbers, 130, 0));
    }
}

/// L and R of 65,535 each: the words are judged by their lengths, and the last state can be used.
fn most_states(tally: &mut Tally, random: &mut Random) {
    let text = [file::line(&[1, 1, 0, 1, 0, 1]), file::line(&[2, 0, 1, 0, 1, 0, 1, 5, 0x65])].concat();
    let Loaded { image, list, .. } = Loaded::new(tally, &text, 200, 30, random);
    let states = 65_535;
    let mut words = vec![65_534; words_needed(states, states)];
    words[..4].copy_from_slice(&[0, 0, 65_535, 65_535]);
    let mut sets = vec![0; sets_needed(states, states)];
    (sets[8 * 65_534], sets[8 * (states + 65_534)]) = (1, 1);
    for (fewer_words, fewer_sets) in [(0, 0), (1, 0), (0, 1)] {
        let (words, sets) = (&words[..words.len() - fewer_words], &sets[..sets.len() - fewer_sets]);
        let compiled = Compiled::new(words, sets, random);
        let name = Lent::new(&[5, 5], random);
        let (heard, steps) =
            lent::speak(tally, &image, &list, &compiled, &name, &mut Room::any(2, 2, random));
        let wanted = if fewer_words + fewer_sets == 0 { (255, 2, 6) } else { (16, 0, 0) };
        tally.equal("65,535 states", (heard.code, heard.given, steps), wanted);
    }
}

/// 64 letters, four phones each: all that the rules can give for one name.
fn longest_name(tally: &mut Tally, random: &mut Random) {
    let text =
        [file::line(&[1, 1, 0, 1, 0xFF, 0xFF]), file::line(&[2, 0xFF, 0xFF, 0, 1, 0, 4, 0x3E, 1, 2, 3, 255])];
    let loaded = Loaded::new(tally, &text.concat(), 200, 30, random);
    let said = loaded.speak(tally, &[0x3E; 64], 256, 64, random);
    tally.equal("the longest name", said, Spoken::said(&[1, 2, 3, 255].repeat(64), &[65_535; 64], 130, 0));
    let refused = |number, place| Spoken::refused(number, place, 130);
    let said = loaded.speak(tally, &[0x3E; 64], 255, 0, random);
    tally.equal("255 phones lent", said, refused(4, 256));
    let said = loaded.speak(tally, &[0x3E; 64], 256, 63, random);
    tally.equal("63 numbers lent", said, refused(5, 64));
}

/// Rules added and dropped until `last` is 65,535, and then 512 of them held at once.
fn every_number(tally: &mut Tally, random: &mut Random) {
    let rule = Lent::new(&Rule::new([&[], &[5], &[], &[]]).expect("short enough").0, random);
    let mut image = Lent::any(IMAGE, random);
    lent::clear(tally, &mut image);
    for number in 1..=65_535 - 512 {
        lent::add(tally, &mut image, &rule, 0);
        lent::drop(tally, &mut image, number);
    }
    for k in 0..512 {
        lent::add(tally, &mut image, &rule, k / 2);
    }
    tally.equal("the last number", last(image.contents()), 65_535);
    tally.equal("the edits", edits(image.contents()), 65_535 + 65_535 - 512);
    lent::add(tally, &mut image, &rule, 0);
    lent::drop(tally, &mut image, 65_535);
    lent::add(tally, &mut image, &rule, 0);
    lent::check(tally, &image);
}
