//! Rule files, damaged as text and as frames whose sums still hold.

use super::rules::SOME_LENGTHS;
use crate::random::Random;
use crate::reference::file::{frame, line};
use crate::reference::rule::{CONTEXT, MOST};

/// Damaged in one way; it may still be a rule file, for the reference judges it.
pub fn damaged(file: &[u8], random: &mut Random) -> Vec<u8> {
    match random.below(4) {
        0 => damaged_text(file.to_vec(), random),
        1 => damaged_lines(file, random),
        2 => damaged_classes(file, random),
        _ => damaged_frame(file, random),
    }
}

fn damaged_text(mut file: Vec<u8>, random: &mut Random) -> Vec<u8> {
    let at = random.below(file.len());
    match random.below(10) {
        0 => file[at] ^= 1 << random.below(8),
        1 => file[at] = random.byte(),
        2 => file.truncate(at),
        3 => file.truncate(file.len() - 1),
        4 => file.extend(random.pick(&[&b"\n"[..], b"0", b"00\n", b"02FE\n", b"\0", b" "])),
        5 => file[at] = file[at].to_ascii_lowercase(),
        6 => file.insert(at, random.pick(b"0123456789ABCDEFabcdef\n\r ")),
        7 => drop(file.remove(at)),
        8 => {
            let length = random.pick(&[0, 1, 2, 15, 100]);
            file = random.bytes(length);
        }
        _ => {
            let ends = file.iter().position(|symbol| *symbol == b'\n').expect("lines end");
            file.insert(ends, b'\r');
        }
    }
    file
}

/// Whole lines dropped, repeated, exchanged, put in.
fn damaged_lines(file: &[u8], random: &mut Random) -> Vec<u8> {
    let mut lines = lines(file);
    let (at, other) = (random.below(lines.len()), random.below(lines.len()));
    match random.below(7) {
        0 => drop(lines.remove(at)),
        1 => lines.insert(at, lines[other].clone()),
        2 => lines.swap(at, other),
        3 => lines.push(lines[other].clone()),
        4 => lines[at] = random.pick(&[&b"\n"[..], b"0\n", b"00\n", b"000\n", b"0000\n", b"02FE\n"]).to_vec(),
        5 => {
            // A sum that is wrong in one bit: the last two digits before the line's end.
            let digits = lines[at].len() - 3;
            let sum = lines[at][digits..digits + 2].iter().fold(0, |sum, digit| 16 * sum + value(*digit));
            let wrong = format!("{:02X}", sum ^ 1 << random.below(8));
            lines[at][digits..digits + 2].copy_from_slice(wrong.as_bytes());
        }
        // The number of another rule, with its sum made good.
        _ => {
            lines[at] = reframed(&lines[at], |bytes| {
                if let Some(donor) = frame(&lines[other][..lines[other].len() - 1]) {
                    bytes[1..3].copy_from_slice(&donor[1..3]);
                }
            })
        }
    }
    lines.concat()
}

/// Bytes of one frame altered, with its sum made good: what refusal 14 is for.
fn damaged_frame(file: &[u8], random: &mut Random) -> Vec<u8> {
    let mut lines = lines(file);
    let at = if random.one_in(4) { 0 } else { random.below(lines.len()) };
    lines[at] = reframed(&lines[at], |bytes| {
        let place = random.below(bytes.len());
        match random.below(12) {
            0 => bytes[place] = random.pick(&[0, 1, 2, 4, 5, 6, 7, 0x3F, 0x40, 255]),
            1 => bytes[place] = bytes[place].wrapping_add(1),
            2 => bytes[place] = bytes[place].wrapping_sub(1),
            3 => bytes.push(random.byte()),
            4 => drop(bytes.pop()),
            5 => bytes.insert(place, random.within(1, 0x3F) as u8),
            6 => bytes[0] = random.pick(&[0, 1, 2, 3, 4, 7]),
            7 => bytes.truncate(place.max(1)),
            8 => {
                let more = random.within(1, 700);
                bytes.extend(random.bytes(more));
            }
            9 => *bytes = long_parts(bytes, random),
            10 => long_context(bytes, random),
            _ => {
                // The lengths of a rule line, or a head's count and `last`.
                let field = random.within(2, 6).min(bytes.len() - 1);
                bytes[field] = random.pick(&SOME_LENGTHS);
            }
        }
    });
    lines.concat()
}

/// Class lines put in, at other places, twice or gone, or with other fields, their sums made good; some bring the
/// literal rules beyond 512.
fn damaged_classes(file: &[u8], random: &mut Random) -> Vec<u8> {
    let mut lines = lines(file);
    let is_class = |text: &Vec<u8>| frame(&text[..text.len() - 1]).is_some_and(|bytes| bytes[0] == 7);
    let classes: Vec<usize> = (0..lines.len()).filter(|k| is_class(&lines[*k])).collect();
    let other = random.below(lines.len() + 1);
    if classes.is_empty() || random.one_in(4) {
        let letters = random.pick(&[&[][..], &[0], &[1], &[1, 1], &[2, 1], &[0x3E], &[0x3F], &[1, 2]]);
        let symbol = random.pick(&[0x3F, 0x40, 0x41, 0x5F, 0x60]);
        let fields = [&[7, symbol, letters.len() as u8], letters].concat();
        let cut = random.pick(&[1, 2, 3, fields.len(), fields.len(), fields.len()]).min(fields.len());
        lines.insert(random.pick(&[1.min(lines.len()), other]), line(&fields[..cut]));
        return lines.concat();
    }
    let at = random.pick(&classes);
    match random.below(6) {
        0 => drop(lines.remove(at)),
        1 => lines.insert(other, lines[at].clone()),
        2 => lines.swap(at, random.pick(&classes)),
        3 => {
            let moved = lines.remove(at);
            lines.insert(other.min(lines.len()), moved);
        }
        4 => lines[at] = line(&[&[7, 0x40 + (at as u8 - 1), 32], &(1..33).collect::<Vec<u8>>()[..]].concat()),
        _ => {
            lines[at] = reframed(&lines[at], |bytes| {
                let place = random.within(1, bytes.len() - 1);
                bytes[place] = random.pick(&[0, 1, 2, 32, 33, 0x3E, 0x3F, 0x40, 0x41, 0x5F, 0x60, 255]);
            })
        }
    }
    lines.concat()
}

/// A rule line whose lengths agree with its bytes, within the shape or just past it.
fn long_parts(bytes: &[u8], random: &mut Random) -> Vec<u8> {
    let lengths = MOST.map(|most| random.within(0, most + 1));
    let mut longer = bytes[..3].to_vec();
    longer.extend(lengths.map(|length| length as u8));
    longer.extend((0..lengths.iter().sum()).map(|_| random.within(1, 0x3F) as u8));
    longer
}

/// A rule line with more symbols put into one of its contexts, inside of a # at its outer end: up to the limit, one or
/// two past it, or many. Its lengths agree with its bytes.
fn long_context(bytes: &mut Vec<u8>, random: &mut Random) {
    let [2, _, _, left, target, right, ..] = bytes[..] else {
        return;
    };
    let (field, length, inner) = match random.below(2) {
        0 => (3, left, 7 + left as usize),
        _ => (5, right, 7 + left as usize + target as usize),
    };
    let wanted = random.pick(&[CONTEXT, CONTEXT + 1, CONTEXT + 1, CONTEXT + 1, CONTEXT + 2, 200]);
    if (length as usize) < wanted && inner <= bytes.len() {
        let more = vec![random.within(1, 0x3E) as u8; wanted - length as usize];
        bytes.splice(inner..inner, more);
        bytes[field] = wanted as u8;
    }
}

fn lines(file: &[u8]) -> Vec<Vec<u8>> {
    file.split_inclusive(|symbol| *symbol == b'\n').map(<[u8]>::to_vec).collect()
}

fn value(digit: u8) -> u32 {
    (digit as char).to_digit(16).unwrap_or(0)
}

fn reframed(text: &[u8], alter: impl FnOnce(&mut Vec<u8>)) -> Vec<u8> {
    let Some(mut bytes) = frame(&text[..text.len() - 1]) else {
        return text.to_vec();
    };
    alter(&mut bytes);
    line(&bytes)
}
