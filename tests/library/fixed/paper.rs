//! The six rules: made by edits, their file, the marks M1 to M12, and the two answers of `say`.

use super::{add, letters, Loaded, Spoken, SIX_RULES, SIX_SETS, SIX_WORDS};
use crate::lent::{self, Lent, Room};
use crate::random::Random;
use crate::reference::file::{frame, line};
use crate::reference::image::{decode, IMAGE};
use crate::reference::tables;
use crate::tally::Tally;

pub fn paper(tally: &mut Tally, random: &mut Random) {
    let six = Loaded::new(tally, SIX_RULES, SIX_WORDS, SIX_SETS, random);
    spoken_marks(tally, &six, random);
    table_marks(tally, &six);
    by_edits(tally, random);
    many(tally, &six, random);
    say(tally, &six, random);
}

/// M1 to M9, with document 02's count: rules 1 and 2 fit k in #kn, 4 and 5 ee, 3 and 5 the last e.
fn spoken_marks(tally: &mut Tally, six: &Loaded, random: &mut Random) {
    let marks: [(&str, &[u8], &[u16], usize); 8] = [
        ("knee", &[0x6E, 0x69], &[1, 6, 4], 2),
        ("keen", &[0x6B, 0x69, 0x6E], &[2, 4, 6], 1),
        ("eke", &[0x65, 0x6B], &[5, 2, 3], 1),
        ("", &[], &[], 0),
        ("e", &[], &[3], 1),
        ("eee", &[0x69], &[4, 3], 2),
        ("kn", &[0x6E], &[1, 6], 1),
        ("kkn", &[0x6B, 0x6B, 0x6E], &[2, 2, 6], 0),
    ];
    for (name, phones, numbers, contested) in marks {
        let said = six.speak(tally, &letters(name), 256, 64, random);
        tally.equal(name, said, Spoken::said(phones, numbers, 2 * name.len() + 2, contested));
    }
    let nab = six.speak(tally, &letters("nab"), 256, 64, random);
    tally.equal("nab", nab, Spoken::refused(3, 2, 8));
}

/// M10 to M12, on the words that the library built.
fn table_marks(tally: &mut Tally, six: &Loaded) {
    let (words, sets) = (six.compiled.words.contents(), six.compiled.sets.contents());
    tally.equal("M10, L and R", (words[2], words[3]), (2, 8));
    let set = decode(six.image.contents()).unwrap_or_default();
    let strings: [&[u8]; 8] = [&[], &[14], &[14, 11], &[11], &[0], &[0, 5], &[5], &[5, 5]];
    tally.equal(
        "M10, right strings",
        tables::build(&set).right_strings,
        strings.map(<[u8]>::to_vec).to_vec(),
    );
    tally.equal("M11", words[4 + 64 * 2 + 64 * 5 + 5], 7);
    let first_word = |state: usize| sets[8 * (2 + state)];
    tally.equal("M12", [2, 5, 7].map(first_word), [3, 20, 24]);
}

/// The six rules by six edits give the paper's file to the byte.
fn by_edits(tally: &mut Tally, random: &mut Random) {
    let rules: [[&[u8]; 4]; 6] = [
        [&[0], &[11], &[14], &[]],
        [&[], &[11], &[], &[0x6B]],
        [&[], &[5], &[0], &[]],
        [&[], &[5, 5], &[], &[0x69]],
        [&[], &[5], &[], &[0x65]],
        [&[], &[14], &[], &[0x6E]],
    ];
    let mut image = Lent::any(IMAGE, random);
    lent::clear(tally, &mut image);
    for (place, parts) in rules.into_iter().enumerate() {
        add(tally, &mut image, parts, place, random);
    }
    let mut out = Lent::any(SIX_RULES.len(), random);
    lent::write_file(tally, &image, &mut out);
    tally.equal("the six rules' file", out.contents(), SIX_RULES);
    lent::read_file(tally, &out, &mut image);
}

/// Marks M1, M4 and M6 in one call, and a name that is cut off.
fn many(tally: &mut Tally, six: &Loaded, random: &mut Random) {
    let mut names = Vec::new();
    for name in ["knee", "nab", "e"] {
        names.push(name.len() as u8);
        names.extend(letters(name));
    }
    names.extend([2, 5]);
    let (mut room, mut replies) = (Room::any(2, 4, random), Lent::any(20, random));
    let names = Lent::new(&names, random);
    lent::speak_many(tally, &six.image, &six.list, &six.compiled, &names, &mut room, &mut replies);
    let wanted = [[255, 2, 3, 10, 2], [3, 2, 0, 8, 0], [255, 0, 1, 4, 1]];
    tally.equal("replies", &replies.contents()[..15], wanted.as_flattened());
    tally.equal("many names", room.contents(), (&[0x6E, 0x69], &[1, 6, 4, 3]));
}

/// What `say` would print, from the library's answers.
fn say(tally: &mut Tally, six: &Loaded, random: &mut Random) {
    let lines = [("030B0E0505DA", "04000A00026E69030001000600040B\n"), ("030E0102EC", "050300000002F6\n")];
    for (input, output) in lines {
        let asked = frame(input.as_bytes()).unwrap_or_default();
        let name = asked.get(1..).unwrap_or_default();
        let answer = match six.speak(tally, name, 256, 64, random) {
            Spoken::Said { phones, numbers, steps, .. } => {
                let mut bytes = vec![4];
                bytes.extend((steps as u16).to_be_bytes());
                bytes.extend((phones.len() as u16).to_be_bytes());
                bytes.extend(phones);
                bytes.push(numbers.len() as u8);
                bytes.extend(numbers.iter().flat_map(|number| number.to_be_bytes()));
                bytes
            }
            Spoken::Refused { number, place, .. } => {
                [&[5, number], &(place as u32).to_be_bytes()[..]].concat()
            }
        };
        tally.equal("say", line(&answer), output.as_bytes().to_vec());
    }
}
