//! The lists that `limits` counts on: `limits SHAPE ENGINE CALL COUNT` makes one, sees that the call answers as it should, and
//! then makes the call COUNT times, so that the difference of two runs' instruction counts is the calls' own.
//!
//! SHAPE is `flat`, 4095 readings of height 0 with 8 levels, or `level-K`, a levelled list of 2^K - 1 readings with K - 1 levels,
//! but of 60,000 with 16 levels where K is 16. ENGINE is `core` or `public`. CALL is `refuse-A`, a search with the allowance A that
//! needs more; `search` and `read`, of the reading that takes the longest walk; `search-spread` and `read-spread`, of readings
//! all over the list, each once; or `check`.

mod c_calls;

use c_calls::{core_insert, core_read, core_search, raw};
use std::hint::black_box;

/// The key of a rank: all differ.
fn key(rank: u32) -> u32 {
    3 * rank
}

struct List {
    w: Vec<u32>,
    readings: u32,
    levels: u32,
    levelled: bool,
}

impl List {
    /// The readings go in from the last to the first, so that each walk is short.
    fn new(readings: u32, levels: u32, levelled: bool) -> Self {
        let mut w = vec![0; (8 + (1 + readings) * (4 + 2 * levels)) as usize];
        let (p, n) = (w.as_mut_ptr(), w.len());
        // SAFETY: `p` and `n` are the whole of `w`, as in every call below; the words pass after set-up and after every
        // insert, and there is room.
        unsafe {
            assert_eq!(raw::ska_set_up(p, n, 1, levels, readings), 0);
            for rank in (1..=readings).rev() {
                let height = if levelled { rank.trailing_zeros().min(levels) } else { 0 };
                core_insert(p, n, levels as usize, 0, key(rank), height);
            }
            assert_eq!(raw::ska_check(p, n), 1);
        }
        Self {
            w,
            readings,
            levels,
            levelled,
        }
    }

    fn of_shape(shape: &str) -> Self {
        match shape.strip_prefix("level-").map(|k| k.parse().expect("a number")) {
            None => Self::new(4095, 8, false),
            Some(16) => Self::new(60_000, 16, true),
            Some(k) => Self::new((1 << k) - 1, k - 1, true),
        }
    }

    /// The comparisons of the search for a reading in a levelled list.
    fn tally(&self, rank: u32) -> u32 {
        let (mut at, mut tally) = (0, 0);
        for level in (0..=self.levels).rev() {
            loop {
                let next = ((at >> level) + 1) << level;
                if next > self.readings {
                    break;
                }
                tally += 1;
                if next >= rank {
                    break;
                }
                at = next;
            }
        }
        tally
    }

    /// The rank whose search, or whose read, takes the longest walk.
    fn longest(&self, search: bool) -> u32 {
        let steps = |&rank: &u32| if search { self.tally(rank) } else { rank.count_ones() };
        (1..=self.readings).max_by_key(steps).expect("there are readings")
    }

    /// The ranks in another order; 7919 and the number of readings have no common divisor.
    fn spread(&self, i: u32) -> u32 {
        (u64::from(i) * 7919 % u64::from(self.readings)) as u32 + 1
    }

    #[inline]
    fn search(&self, core: bool, key: u32, allowance: u32) -> [u32; 4] {
        let (w, n, m) = (self.w.as_ptr(), self.w.len(), self.levels as usize);
        let (mut found, mut place, mut tally) = (0, 0, 0);
        // SAFETY: as in `new`.
        unsafe {
            if core {
                return [0, 0, core_search(w, n, m, 0, key, allowance), 0];
            }
            let no = raw::ska_search(w, n, 0, key, allowance, &mut found, &mut place, &mut tally);
            [no, found, place, tally]
        }
    }

    #[inline]
    fn read(&self, core: bool, index: u32) -> u32 {
        let (w, n, m) = (self.w.as_ptr(), self.w.len(), self.levels as usize);
        let mut key = 0;
        // SAFETY: as in `new`.
        unsafe {
            if core {
                return core_read(w, n, m, 0, index);
            }
            raw::ska_read(w, n, 0, index, &mut key);
            key
        }
    }

    fn searches(&self, core: bool, count: u32, rank_of: impl Fn(u32) -> u32) {
        let rank = rank_of(0);
        let tally = if self.levelled { self.tally(rank) } else { rank };
        assert_eq!(self.search(false, key(rank), u32::MAX), [0, 1, rank - 1, tally]);
        for i in 0..count {
            black_box(self.search(core, black_box(key(rank_of(i))), u32::MAX));
        }
    }

    fn reads(&self, core: bool, count: u32, rank_of: impl Fn(u32) -> u32) {
        assert_eq!(self.read(false, rank_of(0) - 1), key(rank_of(0)));
        for i in 0..count {
            black_box(self.read(core, black_box(rank_of(i) - 1)));
        }
    }

    /// A search for the reading with the longest walk, refused.
    fn refusals(&self, core: bool, count: u32, allowance: u32) {
        let rank = if self.levelled {
            self.longest(true)
        } else {
            self.readings
        };
        assert_eq!(self.search(false, key(rank), allowance), [10, 0, 0, allowance]);
        for _ in 0..count {
            black_box(self.search(core, black_box(key(rank)), black_box(allowance)));
        }
    }

    fn checks(&self, count: u32) {
        for _ in 0..count {
            // SAFETY: as in `new`.
            black_box(unsafe { raw::ska_check(black_box(self.w.as_ptr()), self.w.len()) });
        }
    }
}

fn main() {
    let args: Vec<String> = std::env::args().skip(1).collect();
    let [shape, engine, call, count] = &args[..] else {
        panic!("limits SHAPE ENGINE CALL COUNT");
    };
    let list = List::of_shape(shape);
    let (core, count) = (engine == "core", count.parse().expect("a number"));
    match call.as_str() {
        "search" => {
            let rank = list.longest(true);
            list.searches(core, count, |_| rank);
        }
        "read" => {
            let rank = list.longest(false);
            list.reads(core, count, |_| rank);
        }
        "search-spread" => list.searches(core, count, |i| list.spread(i)),
        "read-spread" => list.reads(core, count, |i| list.spread(i)),
        "check" => list.checks(count),
        _ => {
            let allowance = call.strip_prefix("refuse-").expect("a call of the list above");
            list.refusals(core, count, allowance.parse().expect("a number"));
        }
    }
    // nothing is freed, so that both runs end alike
    std::process::exit(0);
}
