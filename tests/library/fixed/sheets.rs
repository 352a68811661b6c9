//! Sheets, whole transects in one go, as document 02 tells them, with the answers written out here, so that they hold without the
//! reference.

use super::{letters, Loaded, SIX_RULES, SIX_SETS, SIX_WORDS};
use crate::lent::{self, Compiled, Lent, List, Room, Work};
use crate::make::sheets::joined;
use crate::random::Random;
use crate::reference::image::{put, IMAGE};
use crate::reference::many::REPLY;
use crate::reference::rule::Rule;
use crate::reference::ruleset::Ruleset;
use crate::tally::Tally;

pub fn sheets(tally: &mut Tally, random: &mut Random) {
    shared(tally, random);
    rooms(tally, random);
    listed(tally, random);
    refused(tally, random);
    orders(tally, random);
    memory(tally, random);
    bounds(tally, random);
}

/// Code, place, steps, names.
type Answer = (u8, usize, usize, usize);

/// Names as typed, with commas between them.
fn typed(text: &str) -> Vec<u8> {
    joined(&text.split(',').map(letters).collect::<Vec<_>>())
}

/// The six rules with some names listed.
fn six(tally: &mut Tally, entries: &[(&str, &[u8])], random: &mut Random) -> Loaded {
    let mut six = Loaded::new(tally, SIX_RULES, SIX_WORDS, SIX_SETS, random);
    for (name, phones) in entries {
        six.list(tally, name, phones, random);
    }
    six
}

impl Loaded {
    /// A sheet by these tables, with so much room for phones and numbers and all that it needs besides. Also the replies, without their steps.
    fn sheet(
        &self,
        tally: &mut Tally,
        compiled: &Compiled,
        sheet: &[u8],
        (phones, numbers): (usize, usize),
        random: &mut Random,
    ) -> (Answer, Vec<[usize; 4]>, Room) {
        let mut room = Room::any(phones, numbers, random);
        let mut replies = Lent::any(REPLY * sheet.len().min(256) + 3, random);
        let mut work = Work::of(sheet.len(), 3, random);
        let sheet = Lent::new(sheet, random);
        let answer = lent::speak_sheet(
            tally,
            &self.image,
            &self.list,
            compiled,
            &sheet,
            &mut room,
            &mut replies,
            &mut work,
        );
        let given = replies.contents().chunks(REPLY).take(answer.3);
        let given: Vec<&[usize]> = given.collect();
        tally.check(given.iter().all(|reply| reply[3] == 0), || "a reply of a sheet has steps".to_string());
        (answer, given.iter().map(|reply| [reply[0], reply[1], reply[2], reply[4]]).collect(), room)
    }
}

/// The left pass is shared by all that begin alike, wherever it stands; # by all words. The right pass is not.
fn shared(tally: &mut Tally, random: &mut Random) {
    let six = six(tally, &[], random);
    let cases: [(&str, usize, usize, usize); 16] = [
        ("knee", 1, 5, 5),
        ("", 1, 1, 1),
        (",", 2, 1, 2),
        ("knee,knee", 2, 5, 10),
        ("knee,keen,nab", 3, 11, 14),
        ("knee,nab,keen,knee", 4, 11, 19),
        ("kn,knee", 2, 5, 8),
        ("knee,kn", 2, 5, 8),
        ("e knee,knee", 2, 6, 12),
        ("knee eke knee", 1, 8, 14),
        (" ,  ", 2, 1, 5),
        ("nab,nab", 2, 4, 8),
        ("k,kk,kkk,kkkk", 4, 5, 14),
        ("kkkk,n,kkkk", 3, 6, 12),
        ("e,k,n", 3, 4, 6),
        ("knee,keen,knab,kn,eke", 5, 13, 22),
    ];
    for (text, names, left, right) in cases {
        let (answer, ..) = six.sheet(tally, &six.compiled, &typed(text), (256, 64), random);
        tally.equal(text, answer, (255, 0, left + right, names));
    }
    let (answer, replies, room) = six.sheet(tally, &six.compiled, &typed("knee,nab,keen"), (5, 6), random);
    tally.equal("knee, nab and keen", answer, (255, 0, 25, 3));
    tally.equal("their replies", replies, vec![[255, 2, 3, 2], [3, 2, 0, 0], [255, 3, 3, 1]]);
    tally.equal(
        "their phones and numbers",
        room.contents(),
        (&[0x6E, 0x69, 0x6B, 0x69, 0x6E], &[1, 6, 4, 2, 4, 6]),
    );
    let (answer, ..) = six.sheet(tally, &six.compiled, &[], (0, 0), random);
    tally.equal("no names", answer, (255, 0, 0, 0));
}

/// A refused name takes nothing, and the next one goes on over what is left.
fn rooms(tally: &mut Tally, random: &mut Random) {
    let six = six(tally, &[], random);
    let text = "keen,knee,k,keen,n";
    let steps = 9 + 19;
    let cases: [((usize, usize), [[usize; 4]; 5]); 5] = [
        ((0, 64), [[4, 3, 0, 0], [4, 2, 0, 0], [4, 1, 0, 0], [4, 3, 0, 0], [4, 1, 0, 0]]),
        ((2, 64), [[4, 3, 0, 0], [255, 2, 3, 2], [4, 1, 0, 0], [4, 3, 0, 0], [4, 1, 0, 0]]),
        ((4, 64), [[255, 3, 3, 1], [4, 2, 0, 0], [255, 1, 1, 0], [4, 3, 0, 0], [4, 1, 0, 0]]),
        ((256, 5), [[255, 3, 3, 1], [5, 3, 0, 0], [255, 1, 1, 0], [5, 3, 0, 0], [255, 1, 1, 0]]),
        ((10, 11), [[255, 3, 3, 1], [255, 2, 3, 2], [255, 1, 1, 0], [255, 3, 3, 1], [255, 1, 1, 0]]),
    ];
    for (room, wanted) in cases {
        let (answer, replies, _) = six.sheet(tally, &six.compiled, &typed(text), room, random);
        tally.equal("little room", (answer, replies), ((255, 0, steps, 5), wanted.to_vec()));
    }
    // 2 and 1 have no words.
    let names = [vec![5; 65], letters("knee"), vec![11, 0x40], vec![0; 255], vec![5; 64]];
    let (answer, replies, _) = six.sheet(tally, &six.compiled, &joined(&names), (256, 64), random);
    let wanted = vec![[2, 0, 0, 0], [255, 2, 3, 2], [1, 1, 0, 0], [2, 0, 0, 0], [255, 32, 32, 32]];
    tally.equal("2 and 1", (answer, replies), ((255, 0, 5 + 64 + 5 + 65, 5), wanted));
}

/// Listed names and words take no steps, and what begins like them shares nothing with them. Where no word needs the tables, there need
/// be none.
fn listed(tally: &mut Tally, random: &mut Random) {
    let six = six(tally, &[("knee", &[1, 2]), ("eke nab", &[3]), ("ab", &[4])], random);
    let none = Compiled::any(0, 0, random);
    let cases: [(&str, usize); 7] = [
        ("knee,keen", 10),
        ("keen,knee", 10),
        ("knee,kneen", 12),
        ("knee keen,eke nab", 10),
        ("knee n,ab n,n", 8),
        ("knee,kne", 8),
        ("knee ,knee", 2),
    ];
    for (text, steps) in cases {
        let (answer, ..) = six.sheet(tally, &six.compiled, &typed(text), (256, 64), random);
        tally.equal(text, answer, (255, 0, steps, 2 + text.matches("ab n,n").count()));
        let (answer, ..) = six.sheet(tally, &none, &typed(text), (256, 64), random);
        tally.equal("without tables", answer, (16, 0, 0, 0));
    }
    let names =
        [letters("knee"), letters("eke nab"), vec![5; 65], vec![0x40], letters("ab knee ab"), letters("ab")];
    let (answer, replies, room) = six.sheet(tally, &none, &joined(&names), (7, 0), random);
    let wanted =
        vec![[255, 2, 0, 0], [255, 1, 0, 0], [2, 0, 0, 0], [1, 0, 0, 0], [255, 4, 0, 0], [4, 1, 0, 0]];
    tally.equal("no word for the tables", (answer, replies), ((255, 0, 0, 6), wanted));
    tally.equal("listed phones", room.contents().0, &[1, 2, 3, 4, 1, 2, 4]);
}

/// The first 16 or 22 that a name alone would get refuses the sheet, wherever it arises, and nothing is written.
fn refused(tally: &mut Tally, random: &mut Random) {
    let six = six(tally, &[("z", &[9])], random);
    let (words, sets) = (six.compiled.words.contents(), six.compiled.sets.contents());
    let altered = |index: usize, value: u16, random: &mut Random| {
        let mut words = words.to_vec();
        words[index] = value;
        Compiled::new(&words, sets, random)
    };
    let no_fit: Vec<u64> = sets.iter().map(|word| if *word == 1 << 5 { 1 } else { *word }).collect();
    let tables: [(&str, Compiled, u8); 4] = [
        ("16 in the left pass", altered(4 + 64 + 14, 2, random), 16),
        ("16 in the right pass", altered(4 + 64 * 2 + 64 * 4 + 14, 8, random), 16),
        ("22", altered(1, 7, random), 22),
        ("16 at a letter", Compiled::new(words, &no_fit, random), 16),
    ];
    for (what, compiled, code) in &tables {
        for text in ["n", "n,e", "z,n", "z,z,n", "keek n"] {
            let (answer, ..) = six.sheet(tally, compiled, &typed(text), (256, 64), random);
            tally.equal(what, answer, (*code, 0, 0, 0));
        }
        let (answer, ..) = six.sheet(tally, compiled, &typed("z,z z"), (256, 64), random);
        tally.equal("listed all the same", answer, (255, 0, 0, 2));
    }
    for (what, compiled, _) in tables.iter().filter(|(what, ..)| *what != "22") {
        for text in ["knee,n", "knee,eke,e,n,knee", "e,e n", "nab,n"] {
            let (answer, ..) = six.sheet(tally, compiled, &typed(text), (256, 64), random);
            tally.equal(what, answer, (16, 0, 0, 0));
            let (answer, ..) = six.sheet(tally, compiled, &typed(text), (0, 0), random);
            tally.equal("without room", answer, (16, 0, 0, 0));
        }
        let (answer, ..) = six.sheet(tally, compiled, &typed("eke,kee,z"), (256, 64), random);
        tally.equal("where no n is", answer, (255, 0, 7 + 8, 3));
    }
}

/// 24 before all else, then 0, 17, 11, 12, 15, and only then the names.
fn orders(tally: &mut Tally, random: &mut Random) {
    let six = six(tally, &[], random);
    let mut broken = six.image.contents().to_vec();
    broken[1] = 7;
    let (broken, no_list) = (Lent::new(&broken, random), List::lent(&[], random));
    let none = Compiled::any(0, 0, random);
    let knee = typed("knee,kn");
    let cut = [&knee[..], &[1]].concat();
    let (tree, kept) = (4 * (knee.len() + 1), knee.len() + 66);
    type Lengths = (usize, usize, usize);
    let cases: [(&Lent<u8>, &List, &[u8], Lengths, (u8, usize)); 8] = [
        (&broken, &no_list, &cut, (0, 0, 0), (24, 0)),
        (&six.image, &six.list, &[0; 257], (0, 0, 0), (24, 0)),
        (&broken, &no_list, &knee, (0, 0, 0), (0, 0)),
        (&six.image, &no_list, &knee, (0, 0, 0), (17, 0)),
        (&six.image, &six.list, &knee, (tree - 1, 0, 0), (11, tree)),
        (&six.image, &six.list, &knee, (tree, kept - 1, 0), (12, kept)),
        (&six.image, &six.list, &knee, (tree, kept, 9), (15, 10)),
        (&six.image, &six.list, &knee, (tree, kept, 10), (16, 0)),
    ];
    for (image, list, sheet, (tree, kept, replies), (code, place)) in cases {
        let sheet = Lent::new(sheet, random);
        let (mut room, mut replies) = (Room::any(256, 64, random), Lent::any(replies, random));
        let mut work = Work::new(&vec![0; tree], &vec![0; kept], random);
        let answer = lent::speak_sheet(tally, image, list, &none, &sheet, &mut room, &mut replies, &mut work);
        tally.equal("the order of a sheet's refusals", answer, (code, place, 0, 0));
    }
}

/// Just the needed words to work in must be zero, to the last; sheets of no names need some too.
fn memory(tally: &mut Tally, random: &mut Random) {
    let six = six(tally, &[], random);
    for sheet in [vec![], vec![0], typed("knee,keen,nab"), vec![5; 6], [[255; 256]; 256].concat()] {
        let bytes = sheet.len().min(256 * 65);
        let (tree, kept, names) = (
            4 * (bytes + 1),
            bytes + 66,
            if sheet.is_empty() { 0 } else { sheet.len().div_ceil(1 + sheet[0] as usize) },
        );
        let sheet = Lent::new(&sheet, random);
        let mut tries = vec![
            (tree, kept, None, None),
            (tree + 1, kept + 1, Some(tree), Some(kept)),
            (0, kept, None, None),
            (tree - 1, kept, None, None),
        ];
        tries.extend([0, 1, tree / 2, tree - 1].map(|at| (tree, kept, Some(at), None)));
        if kept > 0 {
            tries.extend([
                (tree, 0, None, None),
                (tree, kept - 1, None, None),
                (tree, kept - 1, Some(0), None),
            ]);
            tries.extend([0, kept / 2, kept - 1].map(|at| (tree, kept, None, Some(at))));
        }
        for (tree_lent, kept_lent, tree_at, kept_at) in tries {
            let (mut tree_words, mut kept_words) = (vec![0; tree_lent], vec![0; kept_lent]);
            tree_at.inspect(|at| tree_words[*at] = 0x100);
            kept_at.inspect(|at| kept_words[*at] = 0x100_0000);
            let wanted = match () {
                _ if tree_lent < tree || tree_at.is_some_and(|at| at < tree) => (11, tree, 0, 0),
                _ if kept_lent < kept || kept_at.is_some_and(|at| at < kept) => (12, kept, 0, 0),
                _ => (255, 0, 0, names),
            };
            let (mut room, mut replies) = (Room::any(256, 64, random), Lent::any(REPLY * names, random));
            let mut work = Work::new(&tree_words, &kept_words, random);
            let (image, list, compiled) = (&six.image, &six.list, &six.compiled);
            let answer =
                lent::speak_sheet(tally, image, list, compiled, &sheet, &mut room, &mut replies, &mut work);
            let steps = if wanted.0 == 255 { answer.2 } else { 0 };
            tally.equal("the memory to work in", answer, (wanted.0, wanted.1, steps, wanted.3));
        }
    }
}

/// 256 names, of no letters, all alike, of 64 letters that part at the last and at the first; a name more, and names cut short.
fn bounds(tally: &mut Tally, random: &mut Random) {
    let rules: Vec<(u16, Rule)> = (1..=0x3E)
        .map(|letter| {
            (
                letter,
                Rule::new([&[], &[letter as u8], &[], &[letter as u8; 4]])
                    .expect("the parts are short enough"),
            )
        })
        .collect();
    let set = Ruleset { last: 0x3E, rules, ..Ruleset::default() };
    let mut image = vec![0; IMAGE];
    put(&set, &mut image);
    let mut loaded = Loaded::new(tally, SIX_RULES, 64 * 70, 8 * 70, random);
    loaded.image = Lent::new(&image, random);
    lent::build(tally, &loaded.image, &mut loaded.compiled);
    let at_last: Vec<Vec<u8>> =
        (0..=255).map(|k: u8| [vec![7; 62], vec![1 + k / 60, 1 + k % 60]].concat()).collect();
    let at_first: Vec<Vec<u8>> =
        (0..=255).map(|k: u8| [vec![1 + k / 60, 1 + k % 60], vec![7; 62]].concat()).collect();
    let spaces: Vec<Vec<u8>> = vec![vec![0x3F; 64]; 256];
    let cases: [(&str, Vec<Vec<u8>>, usize); 5] = [
        ("no letters", vec![vec![]; 256], 1 + 256),
        ("all alike", vec![vec![5; 64]; 256], 65 + 256 * 65),
        ("apart at the last", at_last, 1 + 62 + 5 + 256 + 256 * 65),
        ("apart at the first", at_first, 1 + 5 + 256 * 63 + 256 * 65),
        ("words of no letters", spaces, 1 + 256 * 65),
    ];
    for (what, names, steps) in cases {
        let (answer, replies, _) =
            loaded.sheet(tally, &loaded.compiled, &joined(&names), (65_536, 16_384), random);
        tally.equal(what, answer, (255, 0, steps, 256));
        tally.check(replies.iter().all(|reply| reply[0] == 255), || format!("{what}: a name is refused"));
    }
    let sheet = joined(&vec![vec![5; 64]; 257]);
    let cut = [0, 1, 64, 65, 66, 256 * 65 - 1, 256 * 65, 256 * 65 + 1, 257 * 65];
    for length in cut {
        let (answer, ..) = loaded.sheet(tally, &loaded.compiled, &sheet[..length], (0, 0), random);
        let names = length / 65;
        let wanted = if length % 65 > 0 || names > 256 { (24, 0, 0, 0) } else { (255, 0, answer.2, names) };
        tally.equal("a sheet cut short", answer, wanted);
    }
}
