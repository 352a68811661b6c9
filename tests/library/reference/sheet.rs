//! A sheet, a whole transect in one go: request 8 of document 02. The memory to work in is the header's.

use super::broken::{broken, Break};
use super::exceptions::Exceptions;
use super::many::{Many, REPLY};
use super::reading::{listed_name, listed_word, sound_name, words, MOST_LETTERS};
use super::ruleset::Ruleset;
use super::walk::{usable, walk};
use super::{refuse, Answer};

/// Names that a sheet has at most.
pub const MOST_NAMES: usize = 256;

/// "Lent one after another with a length byte before each"; 24 where one more begins than may, or one is cut short.
pub fn names(sheet: &[u8]) -> Answer<Vec<&[u8]>> {
    let most = MOST_NAMES + if broken(Break::MoreNames) { 1 } else { 0 };
    let mut names = Vec::new();
    let mut rest = sheet;
    while !rest.is_empty() {
        let Some(name) = rest.get(1..1 + rest[0] as usize) else {
            return if broken(Break::CutLeft) { Ok(names) } else { refuse(24, 0) };
        };
        rest = &rest[1 + name.len()..];
        names.push(name);
    }
    if names.len() > most {
        return refuse(24, 0);
    }
    Ok(names)
}

/// The bytes of a sheet that can matter: those of 256 names of the greatest length.
fn worked_on(sheet: usize) -> usize {
    match broken(Break::LongSheet) {
        true => sheet,
        false => sheet.min(MOST_NAMES * (1 + MOST_LETTERS)),
    }
}

/// How many words of `tree` and of `kept` a sheet of so many bytes needs.
pub fn tree_needed(sheet: usize) -> usize {
    4 * (worked_on(sheet) + 1)
}

pub fn kept_needed(sheet: usize) -> usize {
    worked_on(sheet) + MOST_LETTERS + 2
}

/// 11 and 12 unless the needed words are there and zero, 15 unless each name has room for its reply.
pub fn room(sheet: &[u8], names: usize, tree: &[u16], kept: &[u32], replies: usize) -> Answer<()> {
    let (tree_words, kept_words) = (tree_needed(sheet.len()), kept_needed(sheet.len()));
    if !blank(tree, tree_words) {
        return refuse(11, tree_words);
    }
    if !blank(kept, kept_words) {
        return refuse(12, kept_words);
    }
    if replies < REPLY * names && !broken(Break::RepliesCut) {
        return refuse(15, REPLY * names);
    }
    Ok(())
}

fn blank<T: PartialEq + Default>(lent: &[T], needed: usize) -> bool {
    let judged = if broken(Break::AllBlank) { lent.len() } else { needed };
    let zero = |items: &[T]| items.iter().all(|item| *item == T::default());
    lent.len() >= needed && (broken(Break::AnyBlank) || zero(&lent[..judged]))
}

/// All names answered, and the one count; or the first 16 or 22 that a name alone would get.
pub fn speak(
    set: &Ruleset,
    list: &Exceptions,
    words: &[u16],
    sets: &[u64],
    names: &[&[u8]],
    mut phones_lent: usize,
    numbers_lent: usize,
) -> Answer<(Many, usize)> {
    if broken(Break::SheetJudged) {
        usable(words, sets)?;
    }
    let mut many = Many::default();
    let mut passed = Vec::new();
    for name in names {
        let (phones_left, numbers_left) = many.left(phones_lent, numbers_lent);
        let (answer, steps) = walk(set, list, words, sets, name, phones_left, numbers_left);
        match answer {
            Err(refused)
                if refused.number == 16 && broken(Break::LaterSingly) && !many.replies.is_empty() => {}
            Err(refused) if refused.number == 22 && broken(Break::StaleSingly) => {}
            Err(refused) if [16, 22].contains(&refused.number) => return Err(refused),
            Err(refused) if refused.number == 4 && broken(Break::RefusedTakes) => phones_lent -= phones_left,
            _ => {}
        }
        if answer.is_ok() || !broken(Break::RefusedUnpassed) {
            passed.extend(through_tables(list, name));
        }
        many.answer(answer, if broken(Break::SheetSteps) { steps } else { 0 });
    }
    Ok((many, steps(passed)))
}

/// "All words that a name alone would send through the tables": a name refused with 2 or 1 has none.
fn through_tables(list: &Exceptions, name: &[u8]) -> Vec<Vec<u8>> {
    if sound_name(name).is_err() || listed_name(list, name).is_some() {
        return Vec::new();
    }
    let passes = |word: &_| listed_word(list, word).is_none() || broken(Break::ListedPassed);
    words(name).into_iter().filter(passes).map(|word| word.letters.to_vec()).collect()
}

/// In letter order each word begins like the one before it as far as it begins like any before it: its steps of the left pass are
/// its letters after that. # is one step for all words. The right pass stays separate.
fn steps(mut words: Vec<Vec<u8>>) -> usize {
    let right: usize = words.iter().map(|word| word.len() + 1).sum();
    if !broken(Break::SharedBefore) {
        words.sort();
    }
    let mut left = if broken(Break::BoundaryUnshared) { words.len() } else { words.len().min(1) };
    let mut before: &[u8] = &[];
    for word in &words {
        left += word.len() - word.iter().zip(before).take_while(|(letter, other)| letter == other).count();
        before = if broken(Break::Unshareable) { &[] } else { word };
    }
    if broken(Break::EqualOnce) {
        words.dedup();
        return left + words.iter().map(|word| word.len() + 1).sum::<usize>();
    }
    left + right
}
