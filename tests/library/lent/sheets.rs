//! A sheet of names in one call, and the memory that it works in.

use super::binding::pirrozketa_speak_sheet;
use super::lists::List;
use super::memory::Lent;
use super::names::{judged, Room};
use super::tables::Compiled;
use super::UNWRITTEN;
use crate::random::Random;
use crate::reference::broken::{broken, Break};
use crate::reference::many::{Many, REPLY};
use crate::reference::sheet::{self, kept_needed, tree_needed};
use crate::reference::{Answer, ACCEPTED};
use crate::tally::Tally;

/// What a sheet is worked out in: zero where it is needed, and as it was after every call.
pub struct Work {
    pub tree: Lent<u16>,
    pub kept: Lent<u32>,
}

impl Work {
    /// As a sheet of so many bytes needs it, with so many items more of anything.
    pub fn of(sheet: usize, more: usize, random: &mut Random) -> Work {
        let mut tree = vec![0; tree_needed(sheet)];
        let mut kept = vec![0; kept_needed(sheet)];
        tree.extend((0..more).map(|_| random.next() as u16));
        kept.extend((0..more).map(|_| random.next() as u32));
        Work::new(&tree, &kept, random)
    }

    pub fn new(tree: &[u16], kept: &[u32], random: &mut Random) -> Work {
        Work { tree: Lent::new(tree, random), kept: Lent::new(kept, random) }
    }
}

/// Gives the library's code, place, steps and number of names.
pub fn speak_sheet(
    tally: &mut Tally,
    image: &Lent<u8>,
    list: &List,
    compiled: &Compiled,
    sheet: &Lent<u8>,
    room: &mut Room,
    replies: &mut Lent<usize>,
    work: &mut Work,
) -> (u8, usize, usize, usize) {
    let (words, sets) = (&compiled.words, &compiled.sets);
    let (phones_lent, numbers_lent) = (room.phones.len(), room.numbers.len());
    let answer = said(image, list, compiled, sheet, room, replies, work);
    let wanted = match &answer {
        Ok((many, steps)) => {
            room.want(&many.phones, &many.numbers);
            replies.want(&many.replies[..many.replies.len().min(replies.len())]);
            (ACCEPTED, 0, *steps, many.replies.len() / REPLY)
        }
        Err(refused) => (refused.number, refused.place, 0, 0),
    };
    let (mut place, mut steps, mut names) = (UNWRITTEN, UNWRITTEN, UNWRITTEN);
    let code = unsafe {
        pirrozketa_speak_sheet(
            image.pointer(),
            image.len(),
            list.pointer(),
            list.len(),
            words.pointer(),
            words.len(),
            sets.pointer(),
            sets.len(),
            sheet.pointer(),
            sheet.len(),
            room.phones.pointer_mut(),
            phones_lent,
            room.numbers.pointer_mut(),
            numbers_lent,
            replies.pointer_mut(),
            replies.len(),
            work.tree.pointer_mut(),
            work.tree.len(),
            work.kept.pointer_mut(),
            work.kept.len(),
            &mut place,
            &mut steps,
            &mut names,
        )
    };
    tally.answer("speak_sheet", code, (code, place, steps, names), wanted);
    if let Ok((many, _)) = &answer {
        for (reply, wanted) in replies.contents().chunks(REPLY).zip(many.replies.chunks(REPLY)) {
            tally.answer("speak_sheet's reply", reply[0] as u8, reply, wanted);
        }
    }
    image.check(tally, "speak_sheet's image");
    list.check(tally, "speak_sheet's list");
    compiled.check(tally, "speak_sheet");
    sheet.check(tally, "speak_sheet's sheet");
    room.check(tally, "speak_sheet");
    replies.check(tally, "speak_sheet's replies");
    work.tree.check(tally, "speak_sheet's tree");
    work.kept.check(tally, "speak_sheet's kept words");
    (code, place, steps, names)
}

/// 24, then 0 and 17, the memory to work in, and the names.
fn said(
    image: &Lent<u8>,
    list: &List,
    compiled: &Compiled,
    sheet: &Lent<u8>,
    room: &Room,
    replies: &Lent<usize>,
    work: &Work,
) -> Answer<(Many, usize)> {
    let bytes = sheet.contents();
    if broken(Break::SheetLate) {
        judged(image, list)?;
    }
    let names = sheet::names(bytes)?;
    let enough =
        || sheet::room(bytes, names.len(), work.tree.contents(), work.kept.contents(), replies.len());
    if broken(Break::WorkFirst) {
        enough()?;
    }
    let (set, listed) = judged(image, list)?;
    enough()?;
    let (words, sets) = (compiled.words.contents(), compiled.sets.contents());
    sheet::speak(&set, listed, words, sets, &names, room.phones.len(), room.numbers.len())
}
