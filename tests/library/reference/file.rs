//! The rule file: frames of upper-case hexadecimal, one a line.

use super::broken::{broken, Break};
use super::classes::{sound_class, Classes, CLASSES, MOST_LETTERS};
use super::rule::{Rule, MOST, RULE};
use super::ruleset::{Ruleset, MOST_RULES};
use super::{refuse, Answer};

/// The longest file: the head, all classes with all the letters that one may have, and rules whose parts are full.
pub const LONGEST: usize =
    line_length(HEAD) + CLASSES * line_length(3 + MOST_LETTERS) + MOST_RULES * line_length(3 + RULE);

/// A head's bytes without its sum.
const HEAD: usize = 6;

/// Of a frame that has so many bytes without its sum: two digits a byte, and the end.
const fn line_length(bytes: usize) -> usize {
    2 * (bytes + 1) + 1
}

/// A line from a frame's bytes without its sum: "the last byte makes all bytes add to zero modulo 256".
pub fn line(bytes: &[u8]) -> Vec<u8> {
    let mut sum = bytes.iter().fold(0u8, |sum, byte| sum.wrapping_sub(*byte));
    if broken(Break::Checksum) {
        sum = sum.wrapping_add(1);
    }
    let mut text = String::new();
    for byte in bytes.iter().chain([&sum]) {
        text.push_str(&format!("{byte:02X}"));
    }
    text.push('\n');
    text.into_bytes()
}

/// The bytes of a frame without its sum; None where the digits are no sound frame.
pub fn frame(digits: &[u8]) -> Option<Vec<u8>> {
    if digits.len() % 2 != 0 || digits.len() < 4 {
        return None;
    }
    let mut bytes = Vec::new();
    for pair in digits.chunks(2) {
        bytes.push(16 * digit(pair[0])? + digit(pair[1])?);
    }
    let total = bytes.iter().fold(0u8, |sum, byte| sum.wrapping_add(*byte));
    bytes.pop();
    (total == broken(Break::Checksum) as u8).then_some(bytes)
}

fn digit(symbol: u8) -> Option<u8> {
    b"0123456789ABCDEF".iter().position(|known| *known == symbol).map(|value| value as u8)
}

pub fn write(set: &Ruleset) -> Vec<u8> {
    let (count, last) = ((set.rules.len() as u16).to_be_bytes(), set.last.to_be_bytes());
    let mut file = line(&[1, 1, count[0], count[1], last[0], last[1]]);
    for (symbol, letters) in set.classes.defined() {
        file.extend(line(&[&[7, symbol, letters.len() as u8], letters].concat()));
    }
    for (number, rule) in &set.rules {
        let mut bytes = vec![2];
        bytes.extend(number.to_be_bytes());
        bytes.extend(&rule.0[..4]);
        for part in [rule.left(), rule.target(), rule.right(), rule.phones()] {
            bytes.extend(part);
        }
        file.extend(line(&bytes));
    }
    file
}

/// Refusals 13 and 14, the earlier line first and 13 before 14.
pub fn read(file: &[u8]) -> Answer<Ruleset> {
    let (head, mut at) = sound_line(file, 0)?;
    let [1, 1, count_high, count_low, last_high, last_low] = head[..] else {
        return refuse(14, 0);
    };
    let count = u16::from_be_bytes([count_high, count_low]) as usize;
    if count > MOST_RULES {
        return refuse(14, 0);
    }
    let classes = classes(file, &mut at)?;
    let last = u16::from_be_bytes([last_high, last_low]);
    // "Reading a file sets it to 0."
    let edits = if broken(Break::FileCounts) { count as u32 } else { 0 };
    let mut set = Ruleset { last, rules: Vec::new(), classes, edits };
    for _ in 0..count {
        let (bytes, next) = sound_line(file, at)?;
        let Some((number, rule)) = rule_of(&bytes) else {
            return refuse(14, at);
        };
        let repeated = set.rules.iter().any(|(held, _)| *held == number);
        if repeated
            || !(1..=set.last).contains(&number)
            || !rule.shaped([false; 2])
            || !set.classes.define(&rule)
        {
            return refuse(14, at);
        }
        set.rules.push((number, rule));
        if set.literal_total() > MOST_RULES {
            return refuse(14, at);
        }
        at = next;
    }
    if at < file.len() {
        return refuse(14, at);
    }
    Ok(set)
}

/// "Each sound line of kind 07 between the head and the first other line is one." Leaves `at` where that
/// other line starts.
fn classes(file: &[u8], at: &mut usize) -> Answer<Classes> {
    let mut classes = Classes::default();
    let mut above = 0;
    while let Ok((bytes, next)) = sound_line(file, *at) {
        let [7, fields @ ..] = &bytes[..] else {
            break;
        };
        match fields {
            [symbol, count, letters @ ..]
                if letters.len() == *count as usize
                    && (*symbol > above || broken(Break::AnyOrder))
                    && sound_class(*symbol, letters) =>
            {
                classes.set(*symbol, letters);
                above = *symbol;
            }
            _ => return refuse(14, *at),
        }
        *at = next;
    }
    Ok(classes)
}

/// The frame of the line that starts here and where the next starts, or 13: also for a missing line,
/// whose start is the file's length.
fn sound_line(file: &[u8], start: usize) -> Answer<(Vec<u8>, usize)> {
    let end = file[start..].iter().position(|symbol| *symbol == b'\n');
    match end.and_then(|end| Some((frame(&file[start..start + end])?, start + end + 1))) {
        Some(found) => Ok(found),
        None => refuse(13, start),
    }
}

/// A rule line's number and rule, where its bytes are exactly as many as its lengths say.
fn rule_of(bytes: &[u8]) -> Option<(u16, Rule)> {
    let (head, mut rest) = (bytes.get(..7)?, &bytes[7..]);
    let mut parts: [&[u8]; 4] = [&[]; 4];
    for k in 0..4 {
        let length = head[3 + k] as usize;
        parts[k] = rest.get(..length)?;
        if length == MOST[k] + 1 && takes_longer(k, parts[k]) {
            parts[k] = &parts[k][..MOST[k]];
        }
        rest = &rest[length..];
    }
    if head[0] != 2 || !rest.is_empty() {
        return None;
    }
    Some((u16::from_be_bytes([head[1], head[2]]), Rule::new(parts)?))
}

/// A reference that is wrong on purpose takes a context of one symbol too many, as far as there is room for it.
fn takes_longer(part: usize, symbols: &[u8]) -> bool {
    let uncounted = |outer: Option<&u8>| broken(Break::BoundaryUncounted) && outer == Some(&0);
    match part {
        0 => broken(Break::LongLeftRead) || uncounted(symbols.first()),
        2 => broken(Break::LongRightRead) || uncounted(symbols.last()),
        _ => false,
    }
}
