//! Clear, check, count, last and edits, and the four edits.

use super::binding::*;
use super::memory::Lent;
use super::{code_and_place, UNWRITTEN};
use crate::reference::ruleset::Ruleset;
use crate::reference::{image as layout, refuse, Answer, ACCEPTED};
use crate::tally::Tally;

pub fn clear(tally: &mut Tally, image: &mut Lent<u8>) {
    let code = unsafe { pirrozketa_clear(image.pointer_mut(), image.len()) };
    let long_enough = image.len() >= layout::IMAGE;
    if long_enough {
        want(image, &Ruleset::default());
    }
    tally.answer("clear", code, code, if long_enough { ACCEPTED } else { 0 });
    image.check(tally, "clear's image");
}

/// Check, with the count, `last` and edit count that stand in the memory.
pub fn check(tally: &mut Tally, image: &Lent<u8>) {
    let (code, count, last) = unsafe {
        (
            pirrozketa_check(image.pointer(), image.len()),
            pirrozketa_count(image.pointer(), image.len()),
            pirrozketa_last(image.pointer(), image.len()),
        )
    };
    let valid = layout::decode(image.contents()).is_some();
    tally.answer("check", code, code, if valid { ACCEPTED } else { 0 });
    tally.equal("count", count, layout::count(image.contents()));
    tally.equal("last", last, layout::last(image.contents()));
    tally.equal("edits", edits(image), layout::edits(image.contents()));
    image.check(tally, "check's image");
}

/// The edit count that stands in the memory, by the library.
pub fn edits(image: &Lent<u8>) -> u32 {
    unsafe { pirrozketa_edits(image.pointer(), image.len()) }
}

/// Gives the library's code, as each of the edits does.
pub fn add(tally: &mut Tally, image: &mut Lent<u8>, rule: &Lent<u8>, p: usize) -> u8 {
    let wanted = edited(image, |set| set.add(rule.contents(), p));
    let mut place = UNWRITTEN;
    let code = unsafe {
        pirrozketa_add(image.pointer_mut(), image.len(), rule.pointer(), rule.len(), p, &mut place)
    };
    tally.answer("add", code, (code, place), code_and_place(&wanted));
    image.check(tally, "add's image");
    rule.check(tally, "add's rule");
    code
}

pub fn drop(tally: &mut Tally, image: &mut Lent<u8>, number: u16) -> u8 {
    let wanted = edited(image, |set| set.drop(number));
    let mut place = UNWRITTEN;
    let code = unsafe { pirrozketa_drop(image.pointer_mut(), image.len(), number, &mut place) };
    tally.answer("drop", code, (code, place), code_and_place(&wanted));
    image.check(tally, "drop's image");
    code
}

/// The edit Move.
pub fn shift(tally: &mut Tally, image: &mut Lent<u8>, number: u16, p: usize) -> u8 {
    let wanted = edited(image, |set| set.shift(number, p));
    let mut place = UNWRITTEN;
    let code = unsafe { pirrozketa_move(image.pointer_mut(), image.len(), number, p, &mut place) };
    tally.answer("move", code, (code, place), code_and_place(&wanted));
    image.check(tally, "move's image");
    code
}

pub fn set_class(tally: &mut Tally, image: &mut Lent<u8>, symbol: u8, letters: &Lent<u8>) -> u8 {
    let wanted = edited(image, |set| set.set_class(symbol, letters.contents()));
    let mut place = UNWRITTEN;
    let code = unsafe {
        let (letters, length) = (letters.pointer(), letters.len());
        pirrozketa_set_class(image.pointer_mut(), image.len(), symbol, letters, length, &mut place)
    };
    tally.answer("set_class", code, (code, place), code_and_place(&wanted));
    image.check(tally, "set_class's image");
    letters.check(tally, "set_class's letters");
    code
}

/// The reference's answer to an edit; the image is from then on wanted as the edit leaves it.
fn edited(image: &mut Lent<u8>, edit: impl FnOnce(&mut Ruleset) -> Answer<()>) -> Answer<usize> {
    let Some(mut set) = layout::decode(image.contents()) else {
        return refuse(0, 0);
    };
    let answer = edit(&mut set);
    want(image, &set);
    answer.map(|()| 0)
}

/// From now on the image must hold this ruleset; what lies past it must keep its contents.
pub fn want(image: &mut Lent<u8>, set: &Ruleset) {
    let mut after = image.contents().to_vec();
    layout::put(set, &mut after);
    image.want(&after);
}
