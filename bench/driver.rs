//! One driver for both lists: `driver ENGINE CASE COUNT` prepares all repetitions of a case and runs the first COUNT
//! of them, so that the difference of two runs' instruction counts is the calls' own. `driver ENGINE CASE verify` runs
//! all and prints a digest of the answers and of both lists afterwards; it must not depend on the engine.
//! `driver cases` lists the cases with their repetitions.
//!
//! 256 readings, 8 levels, levelled heights; the arena is that of the shift report (2 lists, 8 levels, 400 nodes).

#[cfg(ours)]
mod c_calls;
mod crate_engine;
#[cfg(ours)]
mod our_engine;

use std::hint::black_box;

pub const LEVELS: u32 = 8;
pub const NODES: u32 = 400;
const READINGS: u32 = 256;
const COPIES: u32 = 64;
const MIXED: usize = 100_000;

/// The height of rank k in a levelled list.
pub fn levelled(rank: u32) -> u32 {
    rank.trailing_zeros().min(LEVELS)
}

pub trait Engine {
    /// Two levelled lists with these keys.
    fn new(a: &[u32], b: &[u32]) -> Self;
    /// What the next insert or merging append draws, where heights are drawn.
    fn hand(&mut self, call: Call);
    /// The answer as numbers that both engines can give.
    fn call(&mut self, call: Call) -> (u32, u32);
    /// The same for comparing answers.
    fn answer(&mut self, call: Call) -> (u32, u32) {
        self.call(call)
    }
    fn keys(&mut self, list: u32) -> Vec<u32>;
}

#[derive(Clone, Copy)]
pub enum Call {
    Search { key: u32 },
    Read { index: u32 },
    Insert { key: u32, height: u32 },
    RemoveKey { key: u32 },
    RemoveAt { index: u32 },
    Truncate { length: u32 },
    SplitAt { index: u32 },
    SplitKey { key: u32 },
    Append,
    /// Of the public calls only.
    Check,
}

/// The readings in order: steps of 1 to 400, every sixteenth equal to the one before.
fn readings() -> Vec<u32> {
    let (mut key, mut state) = (0, 12345u32);
    (0..READINGS)
        .map(|i| {
            state = state.wrapping_mul(1664525).wrapping_add(1013904223);
            if i % 16 != 15 {
                key += 1 + (state >> 16) % 400;
            }
            key
        })
        .collect()
}

/// A case: the keys of both lists, and the calls; each call that changes a list has lists of its own.
struct Case {
    name: &'static str,
    a: Vec<u32>,
    b: Vec<u32>,
    calls: Vec<Call>,
    changes: bool,
}

fn cases() -> Vec<Case> {
    let all = readings();
    let (low, high) = all.split_at(all.len() / 2);
    let even: Vec<u32> = all.iter().copied().step_by(2).collect();
    let odd: Vec<u32> = all.iter().copied().skip(1).step_by(2).collect();
    let key = |i: u32| all[(i * 37 % READINGS) as usize];
    let of = |name, a: &[u32], b: &[u32], changes, calls| Case {
        name,
        a: a.to_vec(),
        b: b.to_vec(),
        calls,
        changes,
    };
    let each = |f: &dyn Fn(u32) -> Call| (0..COPIES).map(f).collect::<Vec<_>>();
    vec![
        of(
            "search-found",
            &all,
            &[],
            false,
            all.iter().map(|&key| Call::Search { key }).collect(),
        ),
        of(
            "search-missing",
            &all,
            &[],
            false,
            all.iter().map(|&key| Call::Search { key: key + 1 }).collect(),
        ),
        of(
            "read",
            &all,
            &[],
            false,
            (0..READINGS).map(|index| Call::Read { index }).collect(),
        ),
        of(
            "insert",
            &all,
            &[],
            true,
            each(&|i| Call::Insert {
                key: key(i) + 1,
                height: levelled(i + 1),
            }),
        ),
        of(
            "remove-key",
            &all,
            &[],
            true,
            each(&|i| Call::RemoveKey { key: key(i) }),
        ),
        of(
            "remove-at",
            &all,
            &[],
            true,
            each(&|i| Call::RemoveAt {
                index: i * 37 % READINGS,
            }),
        ),
        of("truncate", &all, &[], true, each(&|i| Call::Truncate { length: i * 4 })),
        of("split-at", &all, &[], true, each(&|i| Call::SplitAt { index: i * 4 })),
        of("split-key", &all, &[], true, each(&|i| Call::SplitKey { key: key(i) })),
        of("append-behind", low, high, true, each(&|_| Call::Append)),
        of("append-in-front", high, low, true, each(&|_| Call::Append)),
        of("append-merging", &even, &odd, true, each(&|_| Call::Append)),
        of("mixed", &all, &[], false, mixed(all.clone())),
        of("check", &all, &[], false, each(&|_| Call::Check)),
    ]
}

/// Accepted calls on a list that keeps 128 to 384 readings: 2 of 5 search, 1 of 5 reads, 1 of 10 splits and appends again, the rest inserts
/// or removes.
fn mixed(mut keys: Vec<u32>) -> Vec<Call> {
    let mut state = 2026u32;
    let mut below = |n: u32| {
        state = state.wrapping_mul(1664525).wrapping_add(1013904223);
        (u64::from(state) * u64::from(n) >> 32) as u32
    };
    let mut calls = Vec::new();
    while calls.len() < MIXED {
        let index = below(keys.len() as u32);
        let near = keys[index as usize] + below(2);
        match below(10) {
            0..4 => calls.push(Call::Search { key: near }),
            4..6 => calls.push(Call::Read { index }),
            6 => calls.extend([Call::SplitAt { index }, Call::Append]),
            _ if keys.len() < 128 || keys.len() < 384 && below(2) == 0 => {
                keys.insert(keys.partition_point(|&key| key < near), near);
                let height = levelled(1 + below(1 << LEVELS));
                calls.push(Call::Insert { key: near, height });
            }
            7..9 => {
                keys.remove(index as usize);
                calls.push(Call::RemoveAt { index });
            }
            _ => {
                let key = keys.remove(index as usize);
                calls.push(Call::RemoveKey { key });
            }
        }
    }
    calls.truncate(MIXED);
    calls
}

fn fold(digest: u64, x: u32) -> u64 {
    (digest ^ u64::from(x)).wrapping_mul(0x100_0000_01b3)
}

/// One height at a time: the crate copies its generator at every split, and a queue of all heights would be copied with it.
fn hand_insert<E: Engine>(list: &mut E, call: Call) {
    if let Call::Insert { .. } = call {
        list.hand(call);
    }
}

fn run<E: Engine>(case: &Case, count: &str) {
    let copies = if case.changes { case.calls.len() } else { 1 };
    let mut lists: Vec<E> = (0..copies)
        .map(|_| E::new(black_box(&case.a), black_box(&case.b)))
        .collect();
    if case.changes {
        for (list, &call) in lists.iter_mut().zip(&case.calls) {
            list.hand(call);
        }
    }
    if count == "verify" {
        let mut digest = 0xcbf2_9ce4_8422_2325;
        for (i, &call) in case.calls.iter().enumerate() {
            let list = &mut lists[if case.changes { i } else { 0 }];
            if !case.changes {
                hand_insert(list, call);
            }
            let (x, y) = list.answer(call);
            digest = fold(fold(digest, x), y);
            if case.calls.len() == MIXED && i % 1000 != 999 {
                continue;
            }
            for key in list.keys(0).into_iter().chain([u32::MAX]).chain(list.keys(1)) {
                digest = fold(digest, key);
            }
        }
        println!("{digest:016x}");
    } else {
        let count: usize = count.parse().expect("COUNT is a number or `verify`");
        let calls = &case.calls[..count];
        if case.calls.len() == MIXED {
            for &call in calls {
                hand_insert(&mut lists[0], call);
                black_box(lists[0].call(black_box(call)));
            }
        } else {
            for (i, &call) in calls.iter().enumerate() {
                let list = &mut lists[if case.changes { i } else { 0 }];
                black_box(list.call(black_box(call)));
            }
        }
    }
    // nothing is freed, so that both runs end alike
    std::process::exit(0);
}

fn main() {
    let args: Vec<String> = std::env::args().skip(1).collect();
    let cases = cases();
    match &args.iter().map(String::as_str).collect::<Vec<_>>()[..] {
        ["cases"] => cases
            .iter()
            .for_each(|case| println!("{} {}", case.name, case.calls.len())),
        [engine, name, count] => {
            let case = cases
                .iter()
                .find(|case| case.name == *name)
                .expect("a case of `driver cases`");
            match *engine {
                "crate" => run::<crate_engine::Lists>(case, count),
                #[cfg(ours)]
                "core" => run::<our_engine::Core>(case, count),
                #[cfg(ours)]
                "public" => run::<our_engine::Public>(case, count),
                _ => panic!("no engine {engine}"),
            }
        }
        _ => panic!("driver cases | driver ENGINE CASE COUNT"),
    }
}
