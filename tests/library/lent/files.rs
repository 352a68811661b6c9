//! The rule file read and written.

use super::binding::*;
use super::edits::want;
use super::memory::Lent;
use super::{code_and_place, UNWRITTEN};
use crate::reference::{file as text, image as layout, refuse, Answer};
use crate::tally::Tally;

pub fn read_file(tally: &mut Tally, file: &Lent<u8>, image: &mut Lent<u8>) {
    let wanted = taken(file, image);
    let mut place = UNWRITTEN;
    let code = unsafe {
        pirrozketa_read_file(file.pointer(), file.len(), image.pointer_mut(), image.len(), &mut place)
    };
    tally.answer("read_file", code, (code, place), code_and_place(&wanted));
    image.check(tally, "read_file's image");
    file.check(tally, "read_file's file");
}

pub fn write_file(tally: &mut Tally, image: &Lent<u8>, out: &mut Lent<u8>) {
    let wanted = written(image, out);
    let mut bytes = UNWRITTEN;
    let code = unsafe {
        pirrozketa_write_file(image.pointer(), image.len(), out.pointer_mut(), out.len(), &mut bytes)
    };
    tally.answer("write_file", code, (code, bytes), code_and_place(&wanted));
    out.check(tally, "write_file's bytes");
    image.check(tally, "write_file's image");
}

/// What reading gives; the image, whatever it held, is from then on wanted so. Bytes past a part of a
/// rule were seen to be zero, which no paper says.
fn taken(file: &Lent<u8>, image: &mut Lent<u8>) -> Answer<usize> {
    if image.len() < layout::IMAGE {
        return refuse(0, 0);
    }
    want(image, &text::read(file.contents())?);
    Ok(0)
}

fn written(image: &Lent<u8>, out: &mut Lent<u8>) -> Answer<usize> {
    let Some(set) = layout::decode(image.contents()) else {
        return refuse(0, 0);
    };
    let file = text::write(&set);
    if file.len() > out.len() {
        return refuse(15, file.len());
    }
    out.want(&file);
    Ok(file.len())
}
