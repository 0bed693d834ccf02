//! The calls of include/ska.h as a safe wrapper over lent words: pointer and length come from one slice, out-parameters are its own,
//! so no call can be given memory that it may not touch. It is `no_std` and allocates nothing.
//! It needs Rust 1.63 or later, and so does lamp.rs: both were built and run with 1.63 and with 1.95.
#![no_std]

use core::fmt;

mod raw;

/// Why a call was refused: its number, 1 to 13.
#[derive(Clone, Copy, Debug, PartialEq, Eq)]
pub struct Refusal(pub u32);

impl Refusal {
    pub const BROKEN: Refusal = Refusal(1);
    pub const BAD_SIZES: Refusal = Refusal(2);
    pub const NO_LIST: Refusal = Refusal(3);
    pub const SAME_LIST: Refusal = Refusal(4);
    pub const TOO_HIGH: Refusal = Refusal(5);
    pub const FULL: Refusal = Refusal(6);
    pub const NOT_EMPTY: Refusal = Refusal(7);
    pub const PAST_END: Refusal = Refusal(8);
    pub const NO_KEY: Refusal = Refusal(9);
    pub const BEYOND: Refusal = Refusal(10);
    pub const LINK_ZERO: Refusal = Refusal(11);
    pub const LINK_TOP: Refusal = Refusal(12);
    pub const LINK_LAST: Refusal = Refusal(13);
}

impl fmt::Display for Refusal {
    fn fmt(&self, f: &mut fmt::Formatter) -> fmt::Result {
        let message = match self.0 {
            1 => "the arena doesn't pass the check",
            2 => "sizes or length wrong",
            3 => "no such list",
            4 => "the same list twice",
            5 => "height above the number of levels",
            6 => "no free slot",
            7 => "the receiving list isn't empty",
            8 => "index past the end, or an empty list's middle",
            9 => "no such key",
            10 => "the search needs more comparisons than allowed",
            11 => "distance 0",
            12 => "distance raised past 4294967295",
            13 => "distance lowered to 0",
            _ => "unknown number",
        };
        f.write_str(message)
    }
}

fn told<T>(number: u32, value: T) -> Result<T, Refusal> {
    if number == 0 {
        Ok(value)
    } else {
        Err(Refusal(number))
    }
}

/// What a search answers: the index of the first equal key, or the place where it would stand.
#[derive(Clone, Copy, Debug, PartialEq, Eq)]
pub enum Searched {
    Found { index: u32, tally: u32 },
    Missing { place: u32, tally: u32 },
}

/// Lent words that hold an arena, or are to hold one.
pub struct Arena<'a>(&'a mut [u32]);

/// The allowance of a search that may take as many comparisons as it needs.
pub const NO_LIMIT: u32 = u32::MAX;

/// How many words an arena of these sizes has.
pub const fn words(lists: u32, levels: u32, nodes: u32) -> usize {
    8 + (lists as usize + nodes as usize) * (4 + 2 * levels as usize)
}

// SAFETY, for every call below: the pointer and the length are those of one slice, borrowed for the call, exclusively where the call may write;
// out-parameters are local variables, so nothing is null and nothing overlaps.
impl<'a> Arena<'a> {
    /// Words as they are: whether they are an arena is asked by every call.
    pub fn lent(w: &'a mut [u32]) -> Self {
        Arena(w)
    }

    /// Makes empty lists and free nodes of any words; there must be `words(lists, levels, nodes)` of them.
    pub fn set_up(w: &'a mut [u32], lists: u32, levels: u32, nodes: u32) -> Result<Self, Refusal> {
        let number = unsafe { raw::ska_set_up(w.as_mut_ptr(), w.len(), lists, levels, nodes) };
        told(number, Arena(w))
    }

    /// Whether the words are an arena.
    pub fn check(&self) -> bool {
        unsafe { raw::ska_check(self.0.as_ptr(), self.0.len()) == 1 }
    }

    /// Looks a key up, with at most `allowance` comparisons.
    pub fn search(&self, list: u32, key: u32, allowance: u32) -> Result<Searched, Refusal> {
        let (mut found, mut place, mut tally) = (0, 0, 0);
        let (w, n) = (self.0.as_ptr(), self.0.len());
        let number = unsafe { raw::ska_search(w, n, list, key, allowance, &mut found, &mut place, &mut tally) };
        let answer = match found {
            0 => Searched::Missing { place, tally },
            _ => Searched::Found { index: place, tally },
        };
        told(number, answer)
    }

    /// The key at an index.
    pub fn read(&self, list: u32, index: u32) -> Result<u32, Refusal> {
        let mut key = 0;
        told(unsafe { raw::ska_read(self.0.as_ptr(), self.0.len(), list, index, &mut key) }, ()).map(|()| key)
    }

    /// Twice the median: the sum of the keys at indexes (length - 1) / 2 and length / 2, both rounded down.
    pub fn middle(&self, list: u32) -> Result<u64, Refusal> {
        let mut twice = 0;
        told(unsafe { raw::ska_middle(self.0.as_ptr(), self.0.len(), list, &mut twice) }, ()).map(|()| twice)
    }

    /// Puts a key before the first that is not below it, with links on `height` levels: give 0 where you have no height, and call
    /// `level` from time to time.
    pub fn insert(&mut self, list: u32, key: u32, height: u32) -> Result<(), Refusal> {
        told(unsafe { raw::ska_insert(self.0.as_mut_ptr(), self.0.len(), list, key, height) }, ())
    }

    /// Removes the first equal key.
    pub fn remove_key(&mut self, list: u32, key: u32) -> Result<u32, Refusal> {
        let mut removed = 0;
        let (w, n) = (self.0.as_mut_ptr(), self.0.len());
        told(unsafe { raw::ska_remove_key(w, n, list, key, &mut removed) }, ()).map(|()| removed)
    }

    /// Removes the key at an index.
    pub fn remove_at(&mut self, list: u32, index: u32) -> Result<u32, Refusal> {
        let mut removed = 0;
        let (w, n) = (self.0.as_mut_ptr(), self.0.len());
        told(unsafe { raw::ska_remove_at(w, n, list, index, &mut removed) }, ()).map(|()| removed)
    }

    /// Keeps the first `count` keys.
    pub fn truncate(&mut self, list: u32, count: u32) -> Result<(), Refusal> {
        told(unsafe { raw::ska_truncate(self.0.as_mut_ptr(), self.0.len(), list, count) }, ())
    }

    /// Keeps no key.
    pub fn clear(&mut self, list: u32) -> Result<(), Refusal> {
        told(unsafe { raw::ska_clear(self.0.as_mut_ptr(), self.0.len(), list) }, ())
    }

    /// Moves what stands from the index on into an empty list.
    pub fn split_at(&mut self, from: u32, to: u32, index: u32) -> Result<(), Refusal> {
        told(unsafe { raw::ska_split_at(self.0.as_mut_ptr(), self.0.len(), from, to, index) }, ())
    }

    /// The same at the number of smaller keys.
    pub fn split_key(&mut self, from: u32, to: u32, key: u32) -> Result<(), Refusal> {
        told(unsafe { raw::ska_split_key(self.0.as_mut_ptr(), self.0.len(), from, to, key) }, ())
    }

    /// Brings b into a, in order; b ends empty.
    pub fn append(&mut self, a: u32, b: u32) -> Result<(), Refusal> {
        told(unsafe { raw::ska_append(self.0.as_mut_ptr(), self.0.len(), a, b) }, ())
    }

    /// Gives every node of a list its height anew, by its rank.
    pub fn level(&mut self, list: u32) -> Result<(), Refusal> {
        told(unsafe { raw::ska_level(self.0.as_mut_ptr(), self.0.len(), list) }, ())
    }
}

/// A link distance.
pub fn link_make(d: u32) -> Result<u32, Refusal> {
    let mut distance = 0;
    told(unsafe { raw::ska_link_make(d, &mut distance) }, ()).map(|()| distance)
}

/// A link distance raised by one.
pub fn link_raise(d: u32) -> Result<u32, Refusal> {
    let mut distance = 0;
    told(unsafe { raw::ska_link_raise(d, &mut distance) }, ()).map(|()| distance)
}

/// A link distance lowered by one.
pub fn link_lower(d: u32) -> Result<u32, Refusal> {
    let mut distance = 0;
    told(unsafe { raw::ska_link_lower(d, &mut distance) }, ()).map(|()| distance)
}
