//! Letter classes, as document 02 tells them: set, used, refused, in the memory, in a file and in the tables; with
//! the answers and the bytes written out here.

use super::{add, letters, Loaded, Spoken};
use crate::lent::{self, Compiled, Lent};
use crate::random::Random;
use crate::reference::classes::SYMBOLS;
use crate::reference::file::{self, line};
use crate::reference::image::{decode, HEAD, IMAGE, LITERALS, MASKS, TOTAL};
use crate::reference::rule::CONTEXT;
use crate::reference::{refuse, ACCEPTED};
use crate::tally::Tally;

/// Of vowels and of m and n: the first class and the last.
const V: u8 = 0x40;
const N: u8 = 0x5F;
const VOWELS: [u8; 5] = [1, 5, 9, 15, 21];
const NASALS: [u8; 2] = [13, 14];
const K: u8 = 11;

/// k before a vowel; k between nasals and a vowel in a word of its own; k.
const BEFORE_VOWEL: [&[u8]; 4] = [&[], &[K], &[V], &[0x63]];
const BETWEEN: [&[u8]; 4] = [&[0, N], &[K], &[V, N, 0], &[0x64]];
const ALONE: [&[u8]; 4] = [&[], &[K], &[], &[0x6B]];

pub fn classes(tally: &mut Tally, random: &mut Random) {
    faults(tally, random);
    orders(tally, random);
    memory(tally, random);
    limit(tally, random);
    handed_in(tally, random);
    files(tally, random);
    literal_order(tally, random);
    spoken(tally, random);
    altered_tables(tally, random);
    written_out(tally, random);
}

/// A ruleset that is edited: each answer is told.
struct Edited<'a> {
    tally: &'a mut Tally,
    random: &'a mut Random,
    image: Lent<u8>,
}

impl<'a> Edited<'a> {
    /// The empty ruleset, in memory that held anything.
    fn new(tally: &'a mut Tally, random: &'a mut Random) -> Edited<'a> {
        let mut image = Lent::any(IMAGE + random.below(3), random);
        lent::clear(tally, &mut image);
        Edited { tally, random, image }
    }

    fn set(&mut self, symbol: u8, some: &[u8], code: u8) {
        let some = Lent::new(some, self.random);
        let given = lent::set_class(self.tally, &mut self.image, symbol, &some);
        self.tally.equal("a class", given, code);
    }

    fn add(&mut self, parts: [&[u8]; 4], p: usize, code: u8) {
        let given = add(self.tally, &mut self.image, parts, p, self.random);
        self.tally.equal("a rule", given, code);
    }

    fn drop(&mut self, number: u16) {
        lent::drop(self.tally, &mut self.image, number);
    }

    fn shift(&mut self, number: u16, p: usize) {
        lent::shift(self.tally, &mut self.image, number, p);
    }

    fn holds(&mut self, what: &str, at: usize, bytes: &[u8]) {
        self.tally.equal(what, &self.image.contents()[at..at + bytes.len()], bytes);
    }

    /// The literal total and the first literal rules: which numbered rule's, and which of its.
    fn literals(&mut self, total: u16, first: &[[u16; 2]]) {
        let bytes: Vec<u8> = first.as_flattened().iter().flat_map(|field| field.to_be_bytes()).collect();
        self.holds("the literal total", TOTAL, &total.to_be_bytes());
        self.holds("literal rules", LITERALS, &bytes);
    }
}

/// Each fault of a class gives 20 and changes no byte, beside the nearest that is none.
fn faults(tally: &mut Tally, random: &mut Random) {
    let up_to = |last: u8| (1..=last).collect::<Vec<u8>>();
    let faulty: [(u8, Vec<u8>); 14] = [
        (0x3F, vec![1]),
        (0x60, vec![1]),
        (0, vec![1]),
        (0xFF, vec![1]),
        (V, vec![]),
        (V, vec![0]),
        (V, vec![0, 1]),
        (V, vec![1, 0x3F]),
        (V, vec![1, V]),
        (V, vec![1, 1]),
        (V, vec![2, 1]),
        (V, vec![1, 3, 2]),
        (V, up_to(33)),
        (V, up_to(62)),
    ];
    let mut edited = Edited::new(tally, random);
    for (symbol, some) in &faulty {
        edited.set(*symbol, some, 20);
    }
    for (symbol, some) in [(V, vec![1]), (N, vec![0x3E]), (V, up_to(32)), (V, VOWELS.to_vec())] {
        edited.set(symbol, &some, ACCEPTED);
    }
    for (symbol, some) in &faulty {
        edited.set(*symbol, some, 20);
    }
    // In use, it stays, whatever the letters; the others may be set. After the last use it may be set again.
    edited.add(BEFORE_VOWEL, 0, ACCEPTED);
    edited.add([&[V], &[K], &[], &[]], 0, ACCEPTED);
    edited.set(V, &VOWELS, 20);
    edited.set(V, &[1], 20);
    edited.set(N, &NASALS, ACCEPTED);
    edited.drop(1);
    edited.set(V, &[1], 20);
    edited.drop(2);
    edited.set(V, &[1], ACCEPTED);
    edited.holds("the class set again", MASKS, &[0, 0, 0, 0, 0, 0, 0, 2]);
}

/// 0 before all; 6, 20, 7, 21, 10.
fn orders(tally: &mut Tally, random: &mut Random) {
    let mut edited = Edited::new(tally, random);
    edited.set(V, &(1..33).collect::<Vec<u8>>(), ACCEPTED);
    edited.set(N, &NASALS, ACCEPTED);
    let undefined = [N - 1];
    let cases: [([&[u8]; 4], u8); 9] = [
        ([&[], &[V], &[], &[]], 6),
        ([&[], &[K, N], &[], &[]], 6),
        ([&undefined, &[undefined[0]], &[], &[]], 6),
        ([&[V, 0], &[K], &[], &[]], 6),
        ([&[], &[K], &[0, V], &[]], 6),
        ([&[0x60], &[K], &[], &[]], 6),
        ([&undefined, &[K], &[], &[]], 20),
        ([&[V], &[K], &undefined, &[]], 20),
        ([&[V, V], &[K], &undefined, &[]], 20),
    ];
    for (parts, code) in cases {
        edited.add(parts, usize::MAX, code);
        edited.add(parts, 0, code);
    }
    for p in [0, 1, usize::MAX] {
        let code = if p > 0 { 7 } else { 21 };
        edited.add([&[V, V], &[K], &[], &[]], p, code);
        edited.add([&[V; CONTEXT], &[K], &[V; CONTEXT], &[]], p, code);
    }
    // One rule of 32 literal ones and `last` 65,535: 21 comes before 10.
    let text = [
        line(&[1, 1, 0, 1, 0xFF, 0xFF]),
        line(&[&[7, V, 32], &(1..33).collect::<Vec<u8>>()[..]].concat()),
        line(&[2, 0xFF, 0xFF, 1, 1, 0, 0, V, K]),
    ];
    lent::read_file(edited.tally, &Lent::new(&text.concat(), edited.random), &mut edited.image);
    edited.add([&[V, V], &[K], &[], &[]], 0, 21);
    edited.add([&[V], &[K], &[], &[]], 0, 10);
    edited.add([&[V], &[K], &[], &[]], 2, 7);
    // Impossible, for its number 0: 0 comes before all.
    let mut impossible = edited.image.contents().to_vec();
    impossible[HEAD..HEAD + 2].fill(0);
    edited.image = Lent::new(&impossible, edited.random);
    edited.add([&undefined, &[V], &[], &[]], 9, 0);
    edited.set(0, &[], 0);
}

/// The bytes that each kind of edit leaves: the masks, the literal total and the table; what lies past them is kept,
/// which the guards of the lent memory and its copy say.
fn memory(tally: &mut Tally, random: &mut Random) {
    let mut edited = Edited::new(tally, random);
    edited.holds("no classes", MASKS, &[0; 256]);
    edited.literals(0, &[]);
    edited.set(N, &NASALS, ACCEPTED);
    edited.holds("m and n", TOTAL - 8, &[0, 0, 0, 0, 0, 0, 0x60, 0]);
    edited.set(V, &VOWELS, ACCEPTED);
    edited.holds("vowels", MASKS, &[0, 0, 0, 0, 0, 0x20, 0x82, 0x22]);
    edited.set(V + 1, &[0x3E], ACCEPTED);
    edited.holds("the last letter", MASKS + 8, &[0x40, 0, 0, 0, 0, 0, 0, 0]);
    edited.literals(0, &[]);
    edited.add(ALONE, 0, ACCEPTED);
    edited.literals(1, &[[0, 0]]);
    edited.add(BEFORE_VOWEL, 1, ACCEPTED);
    edited.literals(6, &[[0, 0], [1, 0], [1, 1], [1, 2], [1, 3], [1, 4]]);
    edited.shift(2, 0);
    edited.literals(6, &[[0, 0], [0, 1], [0, 2], [0, 3], [0, 4], [1, 0]]);
    edited.add([&[N], &[K], &[], &[]], 1, ACCEPTED);
    edited.literals(8, &[[0, 0], [0, 1], [0, 2], [0, 3], [0, 4], [1, 0], [1, 1], [2, 0]]);
    edited.drop(2);
    edited.literals(3, &[[0, 0], [0, 1], [1, 0], [0, 3], [0, 4], [1, 0], [1, 1], [2, 0]]);
    edited.set(V, &[1], ACCEPTED);
    edited.literals(3, &[[0, 0], [0, 1], [1, 0], [0, 3]]);
    let mut out = Lent::any(1000, edited.random);
    lent::write_file(edited.tally, &edited.image, &mut out);
    let text = [
        line(&[1, 1, 0, 2, 0, 3]),
        line(&[7, V, 1, 1]),
        line(&[7, V + 1, 1, 0x3E]),
        line(&[7, N, 2, 13, 14]),
        line(&[2, 0, 3, 1, 1, 0, 0, N, K]),
        line(&[2, 0, 1, 0, 1, 0, 1, K, 0x6B]),
    ]
    .concat();
    edited.tally.equal("the file", &out.contents()[..text.len()], &text[..]);
    lent::read_file(edited.tally, &Lent::new(&text, edited.random), &mut edited.image);
    edited.literals(3, &[[0, 0], [0, 1], [1, 0], [0, 3]]);
    lent::clear(edited.tally, &mut edited.image);
    edited.holds("no classes again", MASKS, &[0; 256]);
    edited.literals(0, &[[0, 0], [0, 1], [1, 0], [0, 3]]);
}

/// 512 literal rules of 16 numbered ones, and 512 of 16 times 31 and 16: then there is room for no more.
fn limit(tally: &mut Tally, random: &mut Random) {
    for count in [32, 31] {
        let mut edited = Edited::new(tally, random);
        edited.set(V, &(0x3F - count..0x3F).collect::<Vec<u8>>(), ACCEPTED);
        for place in 0..16 {
            edited.add([&[V], &[K], &[], &[0x61]], place, ACCEPTED);
        }
        for place in 16..16 + 16 * (32 - count) as usize {
            edited.add(ALONE, place / 2, ACCEPTED);
        }
        edited.holds("512 literal rules", TOTAL, &[2, 0]);
        lent::check(edited.tally, &edited.image);
        edited.add(ALONE, 0, 21);
        edited.add([&[V], &[K], &[], &[]], 0, 21);
        edited.shift(1, 3);
        edited.drop(3);
        edited.add([&[V], &[K], &[N], &[]], 0, 20);
        edited.add([&[V, V], &[K], &[], &[]], 0, 21);
        edited.add([&[V], &[K], &[], &[]], 5, ACCEPTED);
        edited.add(ALONE, 0, 21);
        let mut out = Lent::any(file::LONGEST, edited.random);
        lent::write_file(edited.tally, &edited.image, &mut out);
        lent::read_file(edited.tally, &out, &mut Lent::any(IMAGE, edited.random));
        lent::build(edited.tally, &edited.image, &mut Compiled::any(10_000, 1_000, edited.random));
    }
}

/// The memory of the three rules with one of its bytes another: refusal 0 where a class, the total or the table is
/// broken; what no rule uses, and what lies past the table, is not judged.
fn handed_in(tally: &mut Tally, random: &mut Random) {
    let (sound, undefined) = (three(tally, random).image.contents().to_vec(), [0; 8]);
    let past_table = LITERALS + 4 * 26;
    let cases: [(&str, usize, &[u8], u8); 16] = [
        ("as it is", 0, &[], ACCEPTED),
        ("bit 0", MASKS + 7, &[0x23], 0),
        ("bit 63", MASKS, &[0x80], 0),
        ("bit 0 of a class that no rule uses", MASKS + 15, &[1], 0),
        ("bit 63 of it", MASKS + 8, &[0x80], 0),
        ("33 letters", MASKS + 8, &[0, 0, 0, 3, 0xFF, 0xFF, 0xFF, 0xFE], 0),
        ("32 letters", MASKS + 8, &[0, 0, 0, 1, 0xFF, 0xFF, 0xFF, 0xFE], ACCEPTED),
        ("undefined", TOTAL - 8, &undefined, 0),
        ("a letter less", MASKS + 7, &[0x20], 0),
        ("another letter", MASKS + 7, &[0x24], ACCEPTED),
        ("the total one less", TOTAL, &[0, 25], 0),
        ("the total one more", TOTAL, &[0, 27], 0),
        ("a place", LITERALS + 4 * 20, &[0, 0], 0),
        ("which", LITERALS + 4 * 20, &[0, 1, 0, 1], 0),
        ("the last literal rule", LITERALS + 4 * 25, &[0, 1], 0),
        ("past the last", past_table, &[0xFF; 4], ACCEPTED),
    ];
    for (what, at, bytes, code) in cases {
        let mut image = sound.clone();
        image[at..at + bytes.len()].copy_from_slice(bytes);
        tally.equal(what, decode(&image).is_some(), code == ACCEPTED);
        let mut image = Lent::new(&image, random);
        lent::check(tally, &image);
        lent::write_file(tally, &image, &mut Lent::any(1000, random));
        let given = lent::set_class(tally, &mut image, V + 2, &Lent::new(&[1], random));
        tally.equal(what, given, code);
        lent::drop(tally, &mut image, 1);
        lent::check(tally, &image);
    }
    // Shorter by the table's last byte.
    let mut short = Lent::new(&sound[..IMAGE - 1], random);
    let given = lent::set_class(tally, &mut short, V + 2, &Lent::new(&[1], random));
    tally.equal("a byte short", given, 0);
}

/// Every fault of a class line is 14 at its line; a line that is none there is the first rule's, or 14 where no
/// rule is counted.
fn files(tally: &mut Tally, random: &mut Random) {
    let head = |count: u8| line(&[1, 1, 0, count, 0, 9]);
    let (vowels, nasals) = (line(&[&[7, V, 5], &VOWELS[..]].concat()), line(&[7, N, 2, 13, 14]));
    let (before, alone) = (line(&[2, 0, 1, 0, 1, 1, 0, K, V]), line(&[2, 0, 2, 0, 1, 0, 0, K]));
    let at = head(0).len() + vowels.len();
    let wide = [&[7, 0x50, 33], &(1..34).collect::<Vec<u8>>()[..]].concat();
    let faulty: [&[u8]; 15] = [
        &[7],
        &[7, 0x50],
        &[7, 0x50, 0],
        &[7, 0x50, 1],
        &[7, 0x50, 2, 1],
        &[7, 0x50, 1, 1, 2],
        &[7, 0x3F, 1, 1],
        &[7, 0x60, 1, 1],
        &[7, 0x50, 1, 0],
        &[7, 0x50, 1, 0x3F],
        &[7, 0x50, 2, 1, 1],
        &[7, 0x50, 2, 2, 1],
        &[7, V, 1, 1],
        &[7, V - 1, 1, 1],
        &wide,
    ];
    let mut cases: Vec<(Vec<Vec<u8>>, u8, usize)> = Vec::new();
    for fields in faulty {
        cases.push((vec![head(1), vowels.clone(), line(fields), before.clone()], 14, at));
        cases.push((vec![head(0), vowels.clone(), line(fields)], 14, at));
    }
    for text in [&b"x\n"[..], b"07\n", b"07F8\n", b"\n", b"0750\r\n", b"07F9"] {
        cases.push((vec![head(1), vowels.clone(), text.to_vec()], 13, at));
        cases.push((vec![head(0), vowels.clone(), text.to_vec()], 14, at));
    }
    let after = at + before.len();
    cases.extend([
        (vec![head(1), vowels.clone()], 13, at),
        (vec![head(1), vowels.clone(), vec![]], 13, at),
        (vec![head(1), before.clone()], 14, 15),
        (vec![head(1), nasals.clone(), before.clone()], 14, 15 + nasals.len()),
        (vec![head(2), vowels.clone(), before.clone(), nasals.clone(), alone.clone()], 14, after),
        (vec![head(1), vowels.clone(), before.clone(), nasals.clone()], 14, after),
        (vec![head(1), nasals.clone(), vowels.clone(), before.clone()], 14, 15 + nasals.len()),
        (vec![head(0), vowels.clone(), head(0)], 14, at),
        (vec![head(0), line(&[8, V, 1, 1])], 14, 15),
        (vec![head(1), vowels.clone(), line(&[2, 0, 1, 0, 1, 0, 0, V])], 14, at),
    ]);
    for (lines, number, place) in cases {
        let text = lines.concat();
        tally.equal("the reference's reading", file::read(&text).map(|_| ()), refuse(number, place));
        lent::read_file(tally, &Lent::new(&text, random), &mut Lent::any(IMAGE, random));
    }
    // Classes alone, all of them; 16 rules of 32 literal ones: a 17th rule is one too many, at its own line.
    let all: Vec<Vec<u8>> = SYMBOLS.map(|symbol| line(&[7, symbol, 1, symbol - 0x3F])).collect();
    let rule = |number: u8| line(&[2, 0, number, 1, 1, 0, 0, V, K]);
    let wide = line(&[&[7, V, 32], &(1..33).collect::<Vec<u8>>()[..]].concat());
    let many = [vec![wide], (1..17).map(rule).collect()].concat().concat();
    let sound = [
        [head(0), all.concat()].concat(),
        [head(1), vowels, nasals, before].concat(),
        [line(&[1, 1, 0, 16, 0, 17]), many.clone()].concat(),
    ];
    for text in sound {
        tally.equal("the reference's reading", file::read(&text).is_ok(), true);
        lent::read_file(tally, &Lent::new(&text, random), &mut Lent::any(IMAGE, random));
    }
    let text = [line(&[1, 1, 0, 17, 0, 17]), many].concat();
    for over in [rule(17), line(&[2, 0, 17, 0, 1, 0, 0, K])] {
        let longer = [text.clone(), over].concat();
        tally.equal("513 literal rules", file::read(&longer).map(|_| ()), refuse(14, text.len()));
        lent::read_file(tally, &Lent::new(&longer, random), &mut Lent::any(IMAGE, random));
    }
}

/// The right strings of one rule with two classes, by which the order of its literal rules shows: the leftmost varies
/// slowest, letters ascending; and the sets, in which each has a place.
fn literal_order(tally: &mut Tally, random: &mut Random) {
    let text = [
        line(&[1, 1, 0, 1, 0, 1]),
        line(&[7, V, 2, 1, 5]),
        line(&[7, N, 2, 13, 14]),
        line(&[2, 0, 1, 1, 1, 2, 0, N, K, V, N]),
    ];
    // Left: the empty string, m, n. Right: the empty string, m, ma, mak, n, na, nak, me, mek, ne, nek.
    let loaded = Loaded::new(tally, &text.concat(), 4 + 64 * 14, 8 * 14, random);
    let (words, sets) = (loaded.compiled.words.contents(), loaded.compiled.sets.contents());
    tally.equal("L and R", (words[2], words[3]), (3, 11));
    let entry = |state: usize, symbol: u8| *words.get(4 + 64 * (3 + state) + symbol as usize).unwrap_or(&0);
    let ends = [(13, 1), (14, 1), (13, 5), (14, 5)];
    let states = ends.map(|(last, vowel)| entry(entry(entry(0, last) as usize, vowel) as usize, K));
    tally.equal("right states", states, [3, 6, 8, 10]);
    let set = |state: usize| *sets.get(8 * state).unwrap_or(&0);
    tally.equal("left sets", [set(1), set(2)], [0x0F, 0xF0]);
    tally.equal("right sets", states.map(|state| set(3 + state as usize)), [0x11, 0x22, 0x44, 0x88]);
}

/// The three rules, read and built.
fn three(tally: &mut Tally, random: &mut Random) -> Loaded {
    let mut edited = Edited::new(tally, random);
    edited.set(V, &VOWELS, ACCEPTED);
    edited.set(N, &NASALS, ACCEPTED);
    for (place, parts) in [BETWEEN, BEFORE_VOWEL, ALONE].into_iter().enumerate() {
        edited.add(parts, place, ACCEPTED);
    }
    let held = decode(edited.image.contents()).unwrap_or_default();
    Loaded::new(tally, &file::write(&held), 10_000, 1_000, random)
}

/// Rules 1, 2 and 3 at a k, by the letters around it; a rule counts once where it fits, however many literal rules it
/// means.
fn spoken(tally: &mut Tally, random: &mut Random) {
    let mut loaded = three(tally, random);
    for (place, letter) in [1, 2, 5, 13, 14].into_iter().enumerate() {
        add(tally, &mut loaded.image, [&[], &[letter], &[], &[0x60 + letter]], 3 + place, random);
    }
    lent::build(tally, &loaded.image, &mut loaded.compiled);
    let cases: [(&str, &[u8], &[u16], usize); 8] = [
        ("k", &[0x6B], &[3], 0),
        ("kb", &[0x6B, 0x62], &[3, 5], 0),
        ("ka", &[0x63, 0x61], &[2, 4], 1),
        ("akea", &[0x61, 0x63, 0x65, 0x61], &[4, 2, 6, 4], 1),
        ("mkan", &[0x6D, 0x64, 0x61, 0x6E], &[7, 1, 4, 8], 1),
        ("nkem", &[0x6E, 0x64, 0x65, 0x6D], &[8, 1, 6, 7], 1),
        ("nkemb", &[0x6E, 0x63, 0x65, 0x6D, 0x62], &[8, 2, 6, 7, 5], 1),
        ("mkan ka", &[0x6D, 0x64, 0x61, 0x6E, 0x63, 0x61], &[7, 1, 4, 8, 2, 4], 2),
    ];
    for (name, phones, numbers, contested) in cases {
        let said = loaded.speak(tally, &letters(name), 256, 64, random);
        tally.equal(name, said, Spoken::said(phones, numbers, 2 * name.len() + 2, contested));
    }
    // i is a vowel that no rule speaks.
    let said = loaded.speak(tally, &letters("ki"), 256, 64, random);
    tally.equal("ki", said, Spoken::refused(3, 2, 6));
}

/// The example ruleset with classes and the same written out: every name gives the same phones, steps and contested
/// letters, though by other numbers.
fn written_out(tally: &mut Tally, random: &mut Random) {
    let written = include_bytes!("../../../examples/basque.hex");
    let classed = include_bytes!("../../../examples/basque_classes.hex");
    let both = [&written[..], classed].map(|text| Loaded::new(tally, text, 10_000, 1_000, random));
    let typed = include_str!("../../../examples/basque.names").lines().filter_map(|line| line.split(';').next());
    for name in typed.map(str::trim).filter(|name| !name.is_empty()) {
        // The two letters that the example adds to a to z, and the space.
        let bytes: Vec<u8> = name
            .chars()
            .map(|typed| match typed {
                'ñ' => 0x1B,
                'ü' => 0x1C,
                _ => letters(&typed.to_string())[0],
            })
            .collect();
        let said = both.each_ref().map(|loaded| match loaded.speak(tally, &bytes, 256, 64, random) {
            Spoken::Said { phones, steps, contested, .. } => Some((phones, steps, contested)),
            Spoken::Refused { .. } => None,
        });
        tally.check(said[0].is_some() && said[0] == said[1], || format!("{name} gives {said:?}"));
    }
}

/// Tables whose sets share one place at every letter: the literal rule there must fit, and its place is not that of a
/// numbered rule.
fn altered_tables(tally: &mut Tally, random: &mut Random) {
    let loaded = three(tally, random);
    let (words, sets) = (loaded.compiled.words.contents(), loaded.compiled.sets.contents());
    // 20 literal rules of the first, 5 of the second, of which the second is k before e, then the third.
    let mut cases = vec![
        ("k", 25, Spoken::said(&[0x6B], &[3], 4, 0)),
        ("kk", 25, Spoken::said(&[0x6B; 2], &[3; 2], 6, 0)),
    ];
    for (name, places) in [("k", &[2, 24, 26, 64, 511][..]), ("ke", &[1, 20, 22, 26]), ("mkam", &[0, 1])] {
        cases.extend(places.iter().map(|place| (name, *place, Spoken::refused(16, 0, 0))));
    }
    for (name, place, wanted) in cases {
        let mut altered = vec![0; sets.len()];
        altered.iter_mut().skip(place / 64).step_by(8).for_each(|word| *word = 1 << (place % 64));
        let compiled = Compiled::new(words, &altered, random);
        let said = loaded.speak_by(tally, &compiled, &letters(name), (9, 9), random);
        tally.equal(name, said, wanted);
    }
}
