//! Readings of a lamp kept in lent words: the calls through the safe wrapper, each refusal once, and an arena of the largest size.
//! Prints an account; panics at the first answer that is not the expected one. It uses the standard library; the wrapper, ska.rs, does not.

use ska::{link_lower, link_make, link_raise, words, Arena, Refusal, Searched, NO_LIMIT};

const SIZES: (u32, u32, u32) = (3, 2, 6);
const NOW: u32 = 0;
const LATE: u32 = 1;
const SPARE: u32 = 2;

/// The keys of a list, in order.
fn keys(arena: &Arena, list: u32) -> Result<Vec<u32>, Refusal> {
    let mut keys = Vec::new();
    loop {
        match arena.read(list, keys.len() as u32) {
            Ok(key) => keys.push(key),
            Err(Refusal::PAST_END) => return Ok(keys),
            Err(refusal) => return Err(refusal),
        }
    }
}

fn filled(w: &mut [u32]) -> Result<Arena<'_>, Refusal> {
    let mut arena = Arena::set_up(w, SIZES.0, SIZES.1, SIZES.2)?;
    for reading in [30, 20, 10, 20] {
        arena.insert(NOW, reading, 0)?;
    }
    arena.level(NOW)?;
    Ok(arena)
}

fn searches(arena: &Arena) -> Result<(), Refusal> {
    assert_eq!(keys(arena, NOW)?, [10, 20, 20, 30]);
    let rows = [
        (5, 9, Searched::Missing { place: 0, tally: 3 }),
        (20, 4, Searched::Found { index: 1, tally: 4 }),
        (25, 5, Searched::Missing { place: 3, tally: 5 }),
        (30, 9, Searched::Found { index: 3, tally: 5 }),
        (31, 9, Searched::Missing { place: 4, tally: 1 }),
    ];
    for (key, allowance, wanted) in rows {
        let answer = arena.search(NOW, key, allowance)?;
        assert_eq!(answer, wanted);
        println!("search {key}: {answer:?}");
    }
    assert_eq!(arena.middle(NOW)?, 40);
    Ok(())
}

fn changes(arena: &mut Arena) -> Result<(), Refusal> {
    arena.split_key(NOW, LATE, 20)?;
    assert_eq!((keys(arena, NOW)?, keys(arena, LATE)?), (vec![10], vec![20, 20, 30]));
    arena.insert(NOW, 25, 2)?;
    arena.append(NOW, LATE)?;
    println!("split by 20, 25 inserted, appended: {:?}", keys(arena, NOW)?);
    assert_eq!(keys(arena, NOW)?, [10, 20, 20, 25, 30]);
    assert_eq!(arena.remove_at(NOW, 0)?, 10);
    assert_eq!(arena.remove_key(NOW, 20)?, 20);
    arena.truncate(NOW, 2)?;
    println!("two removed, truncated to 2: {:?}", keys(arena, NOW)?);
    assert_eq!(keys(arena, NOW)?, [20, 25]);
    arena.split_at(NOW, LATE, 1)?;
    arena.clear(NOW)?;
    assert_eq!((keys(arena, NOW)?, keys(arena, LATE)?), (vec![], vec![25]));
    assert!(arena.check());
    Ok(())
}

fn refused<T: std::fmt::Debug>(what: &str, answer: Result<T, Refusal>, wanted: Refusal) {
    let refusal = answer.expect_err(what);
    assert_eq!(refusal, wanted);
    println!("  {:2}  {what}: {refusal}", refusal.0);
}

fn refusals(w: &mut [u32]) -> Result<(), Refusal> {
    println!("refusals:");
    w[12] ^= 1;
    let damaged = Arena::lent(w);
    assert!(!damaged.check());
    refused("read from damaged words", damaged.read(NOW, 0), Refusal::BROKEN);
    w[12] ^= 1;
    let n = w.len();
    refused("one word too few at set-up", Arena::set_up(&mut w[..n - 1], SIZES.0, SIZES.1, SIZES.2).map(|_| ()), Refusal::BAD_SIZES);
    let mut arena = Arena::lent(w);
    refused("list 3 of 3", arena.clear(SIZES.0), Refusal::NO_LIST);
    refused("a list appended to itself", arena.append(NOW, NOW), Refusal::SAME_LIST);
    refused("height 3 of 2", arena.insert(NOW, 7, SIZES.1 + 1), Refusal::TOO_HIGH);
    arena.insert(LATE, 40, 1)?;
    arena.insert(LATE, 50, 0)?;
    refused("a seventh reading", arena.insert(NOW, 60, 0), Refusal::FULL);
    refused("split into a list with readings", arena.split_at(NOW, LATE, 0), Refusal::NOT_EMPTY);
    refused("index 4 of 4", arena.read(NOW, 4), Refusal::PAST_END);
    assert_eq!(arena.middle(SPARE), Err(Refusal::PAST_END));
    refused("no such reading to remove", arena.remove_key(NOW, 25), Refusal::NO_KEY);
    refused("25 searched with 4 comparisons", arena.search(NOW, 25, 4), Refusal::BEYOND);
    assert_eq!(link_make(7)?, 7);
    refused("a distance of 0", link_make(0), Refusal::LINK_ZERO);
    refused("4294967295 raised", link_raise(u32::MAX), Refusal::LINK_TOP);
    refused("1 lowered", link_lower(1), Refusal::LINK_LAST);
    assert!(arena.check());
    Ok(())
}

/// 16 lists, 16 levels, 65535 nodes; 40 readings over the lists, each list levelled.
fn largest() -> Result<(), Refusal> {
    let mut w = vec![0; words(16, 16, 65535)];
    println!("largest arena: {} words", w.len());
    let mut arena = Arena::set_up(&mut w, 16, 16, 65535)?;
    for i in 0..40 {
        arena.insert(i % 16, 1000 - i, i % 17)?;
    }
    for list in 0..16 {
        arena.level(list)?;
    }
    arena.append(0, 15)?;
    assert!(matches!(arena.search(0, 984, NO_LIMIT)?, Searched::Found { index: 2, .. }));
    println!("its first list: {:?}", keys(&arena, 0)?);
    assert_eq!(keys(&arena, 0)?, [968, 969, 984, 985, 1000]);
    arena.insert(15, u32::MAX, 0)?;
    assert_eq!(arena.middle(15)?, 2 * u64::from(u32::MAX));
    assert!(arena.check());
    *w.last_mut().unwrap() = 1;
    let mut damaged = Arena::lent(&mut w);
    assert!(!damaged.check());
    assert_eq!(damaged.clear(0), Err(Refusal::BROKEN));
    Ok(())
}

fn main() -> Result<(), Refusal> {
    assert!(!Arena::lent(&mut []).check());
    let mut w = vec![0; words(SIZES.0, SIZES.1, SIZES.2)];
    let mut arena = filled(&mut w)?;
    searches(&arena)?;
    changes(&mut arena)?;
    filled(&mut w)?;
    refusals(&mut w)?;
    largest()
}
