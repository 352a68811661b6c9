//! Memory to lend, between guards, with a second copy that says what must stand in it.

use crate::random::Random;
use crate::tally::Tally;

pub trait Item: Copy + PartialEq {
    fn of(bits: u64) -> Self;
}

impl Item for u8 {
    fn of(bits: u64) -> u8 {
        bits as u8
    }
}

impl Item for u16 {
    fn of(bits: u64) -> u16 {
        bits as u16
    }
}

impl Item for u32 {
    fn of(bits: u64) -> u32 {
        bits as u32
    }
}

impl Item for u64 {
    fn of(bits: u64) -> u64 {
        bits
    }
}

impl Item for usize {
    fn of(bits: u64) -> usize {
        bits as usize
    }
}

pub struct Lent<T> {
    items: Vec<T>,
    wanted: Vec<T>,
    guard: usize,
    len: usize,
}

impl<T: Item> Lent<T> {
    /// Guards of 16 to 19 items, so that the lent slice's alignment varies.
    pub fn new(contents: &[T], random: &mut Random) -> Lent<T> {
        let guard = random.within(16, 19);
        let mut items: Vec<T> = (0..guard).map(|_| T::of(random.next())).collect();
        items.extend(contents);
        items.extend((0..guard).map(|_| T::of(random.next())));
        Lent { wanted: items.clone(), items, guard, len: contents.len() }
    }

    /// Memory that held anything.
    pub fn any(len: usize, random: &mut Random) -> Lent<T> {
        let contents: Vec<T> = (0..len).map(|_| T::of(random.next())).collect();
        Lent::new(&contents, random)
    }

    /// Never null nor unaligned, also where nothing is lent.
    pub fn pointer(&self) -> *const T {
        self.items[self.guard..].as_ptr()
    }

    pub fn pointer_mut(&mut self) -> *mut T {
        self.items[self.guard..].as_mut_ptr()
    }

    pub fn len(&self) -> usize {
        self.len
    }

    pub fn contents(&self) -> &[T] {
        &self.items[self.guard..][..self.len]
    }

    /// From now on these items must stand at the start; what lies past them must keep its contents.
    pub fn want(&mut self, items: &[T]) {
        self.wanted[self.guard..][..items.len()].copy_from_slice(items);
    }

    /// The first so many items may be anything; as they are, they must stay from now on.
    pub fn allow(&mut self, count: usize) {
        let free = self.guard..self.guard + count;
        self.wanted[free.clone()].copy_from_slice(&self.items[free]);
    }

    /// All of it is as it must be, guards too.
    pub fn check(&self, tally: &mut Tally, what: &str) {
        tally.check(self.items == self.wanted, || {
            let differs = |k: &usize| self.items[*k] != self.wanted[*k];
            let at = (0..self.items.len()).find(differs).expect("they differ");
            format!("{what}: wrong from item {} of {}", at as isize - self.guard as isize, self.len)
        });
    }
}
