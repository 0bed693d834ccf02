//! The crate behind the call script: reads calls on standard input, writes one answer line for each.
//!
//! Keys, indexes, places and tallies are the crate's: a tally is what its key walk compared. What the crate has no
//! notion of is answered by the order beside it: list numbers, room, and the refusals. Where it can't know the answer
//! (words of the arena, arenas that were written by hand) it answers `-`; beside the `-` of a dump stand the keys and
//! heights of its lists. Heights are those of the call; the crate's merging append draws new ones and is handed b's own;
//! levelling is rebuilding with the heights of its rule.

mod crate_world;

use crate_world::Answer::{self, Lists, No, Silent, Unknown, With};
use crate_world::World;
use std::fmt::Write as _;
use std::io::{BufRead, Write};

/// One line's answer; None for a line that is no item.
fn answer(world: &mut World, line: &str) -> Option<Answer> {
    let mut parts = line.split(' ');
    let item = parts.next()?;
    let n: Vec<u32> = parts.map(number).collect::<Option<_>>()?;
    Some(match (item, n.len()) {
        ("new" | "words" | "poke", _) => return world.lend(item, &n),
        ("setup", 3) => world.setup(n[0], n[1], n[2]),
        ("check", 0) => world.check(),
        ("search" | "insert", 3) => world.arena_call(item, 1, &n),
        ("read" | "removekey" | "removeat" | "truncate", 2) => world.arena_call(item, 1, &n),
        ("clear" | "middle" | "level", 1) => world.arena_call(item, 1, &n),
        ("splitat" | "splitkey", 3) => world.arena_call(item, 2, &n),
        ("append", 2) => world.arena_call(item, 2, &n),
        ("linkmake", 1) => World::link(n[0], 0),
        ("linkraise", 1) => World::link(n[0], 1),
        ("linklower", 1) => World::link(n[0], -1),
        ("dump", 0) => world.dump(),
        _ => return None,
    })
}

fn number(word: &str) -> Option<u32> {
    let digits = !word.is_empty() && word.bytes().all(|b| b.is_ascii_digit());
    if digits { word.parse().ok() } else { None }
}

fn main() {
    let mut world = World::new();
    let mut out = std::io::BufWriter::new(std::io::stdout().lock());
    let mut text = String::new();
    for line in std::io::stdin().lock().lines() {
        let line = line.expect("text");
        if line.starts_with('#') {
            continue;
        }
        text.clear();
        match answer(&mut world, &line) {
            None => text.push('?'),
            Some(Silent) => continue,
            Some(Unknown) => text.push('-'),
            Some(Lists(lists)) => text.push_str(&lists),
            Some(No(no)) => write!(text, "{no}").expect("text"),
            Some(With(no, more)) => {
                write!(text, "{no}").expect("text");
                for x in more {
                    write!(text, " {x}").expect("text");
                }
            }
        }
        world.assert_well_formed();
        writeln!(out, "{text}").expect("standard output");
    }
}
