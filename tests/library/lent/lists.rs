//! The exceptions list's memory, with what it holds by the reference, and the calls that change it, judge
//! it and read it out.

use super::binding::*;
use super::memory::Lent;
use super::{code_and_place, UNWRITTEN};
use crate::random::Random;
use crate::reference::exceptions::{Exceptions, LIST};
use crate::reference::list_words::listed_in;
use crate::reference::{refuse, Answer, ACCEPTED};
use crate::tally::Tally;

pub struct List {
    memory: Lent<u32>,
    /// None where the memory is no list: refusal 17.
    held: Option<Exceptions>,
}

impl List {
    /// The empty list, in memory that held anything.
    pub fn empty(tally: &mut Tally, random: &mut Random) -> List {
        let past = random.pick(&[0, 0, 0, 1, 50]);
        let mut list = List { memory: Lent::any(LIST + past, random), held: None };
        clear(tally, &mut list);
        list
    }

    /// Words that the library made, at another place, with what they hold.
    pub fn known(words: &[u32], held: &Exceptions, random: &mut Random) -> List {
        List { memory: Lent::new(words, random), held: Some(held.clone()) }
    }

    /// Any words, with what the reference finds in them.
    pub fn lent(words: &[u32], random: &mut Random) -> List {
        List { memory: Lent::new(words, random), held: listed_in(words) }
    }

    pub fn held(&self) -> Option<&Exceptions> {
        self.held.as_ref()
    }

    pub fn words(&self) -> &[u32] {
        self.memory.contents()
    }

    pub fn pointer(&self) -> *const u32 {
        self.memory.pointer()
    }

    pub fn len(&self) -> usize {
        self.memory.len()
    }

    pub fn check(&self, tally: &mut Tally, what: &str) {
        self.memory.check(tally, what);
    }

    /// After an accepted change the numbers of states and the free words are the library's own business, so
    /// that `check` judges the words; what lies past them is kept.
    fn changed(&mut self, code: u8) {
        if code == ACCEPTED {
            self.memory.allow(LIST.min(self.memory.len()));
        }
    }
}

pub fn clear(tally: &mut Tally, list: &mut List) {
    let long_enough = list.len() >= LIST;
    let code = unsafe { pirrozketa_list_clear(list.memory.pointer_mut(), list.len()) };
    tally.answer("list_clear", code, code, if long_enough { ACCEPTED } else { 17 });
    list.changed(code);
    list.check(tally, "list_clear's list");
    list.held = long_enough.then(Exceptions::default);
}

/// Check, with the numbers of names and states; by their layout the words are the list that is held.
pub fn check(tally: &mut Tally, list: &List) {
    let (code, names, states) = unsafe {
        (
            pirrozketa_list_check(list.pointer(), list.len()),
            pirrozketa_list_names(list.pointer(), list.len()),
            pirrozketa_list_states(list.pointer(), list.len()),
        )
    };
    let wanted = match list.held() {
        Some(held) => (ACCEPTED, held.phones.len(), held.states()),
        None => (17, 0, 0),
    };
    tally.answer("list_check", code, (code, names as usize, states as usize), wanted);
    tally.check(listed_in(list.words()).as_ref() == list.held(), || {
        "the words are not laid as the list that they hold".to_string()
    });
    list.check(tally, "list_check's list");
}

pub fn add(tally: &mut Tally, list: &mut List, name: &Lent<u8>, phones: &Lent<u8>) {
    add_bytes(tally, list, (name.pointer(), name.contents()), (phones.pointer(), phones.contents()));
    name.check(tally, "list_add's name");
    phones.check(tally, "list_add's phones");
}

/// Adds a name whose letters are its phones too, as two slices that are only read may be the same.
pub fn add_its_letters(tally: &mut Tally, list: &mut List, name: &Lent<u8>) {
    let both = (name.pointer(), name.contents());
    add_bytes(tally, list, both, both);
    name.check(tally, "list_add's name");
}

fn add_bytes(tally: &mut Tally, list: &mut List, name: (*const u8, &[u8]), phones: (*const u8, &[u8])) {
    let wanted = edited(list, |held| held.add(name.1, phones.1));
    let mut place = UNWRITTEN;
    let code = unsafe {
        pirrozketa_list_add(
            list.memory.pointer_mut(),
            list.memory.len(),
            name.0,
            name.1.len(),
            phones.0,
            phones.1.len(),
            &mut place,
        )
    };
    tally.answer("list_add", code, (code, place), code_and_place(&wanted));
    list.changed(code);
    list.check(tally, "list_add's list");
}

pub fn remove(tally: &mut Tally, list: &mut List, name: &Lent<u8>) {
    let wanted = edited(list, |held| held.remove(name.contents()));
    let mut place = UNWRITTEN;
    let code = unsafe {
        pirrozketa_list_remove(
            list.memory.pointer_mut(),
            list.memory.len(),
            name.pointer(),
            name.len(),
            &mut place,
        )
    };
    tally.answer("list_remove", code, (code, place), code_and_place(&wanted));
    list.changed(code);
    list.check(tally, "list_remove's list");
    name.check(tally, "list_remove's name");
}

fn edited(list: &mut List, edit: impl FnOnce(&mut Exceptions) -> Answer<()>) -> Answer<usize> {
    match &mut list.held {
        Some(held) => edit(held).map(|()| 0),
        None => refuse(17, 0),
    }
}

pub fn read_out(tally: &mut Tally, list: &List, out: &mut Lent<u8>) {
    let wanted = written(list, out);
    let (code, bytes) = call_read_out(list, out);
    tally.answer("list_read_out", code, (code, bytes), code_and_place(&wanted));
    out.check(tally, "list_read_out's bytes");
    list.check(tally, "list_read_out's list");
}

fn written(list: &List, out: &mut Lent<u8>) -> Answer<usize> {
    let Some(held) = list.held() else {
        return refuse(17, 0);
    };
    let bytes = held.read_out();
    if bytes.len() > out.len() {
        return refuse(15, bytes.len());
    }
    out.want(&bytes);
    Ok(bytes.len())
}

fn call_read_out(list: &List, out: &mut Lent<u8>) -> (u8, usize) {
    let mut bytes = UNWRITTEN;
    let code = unsafe {
        pirrozketa_list_read_out(list.pointer(), list.len(), out.pointer_mut(), out.len(), &mut bytes)
    };
    (code, bytes)
}
