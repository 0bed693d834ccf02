//! Lists of the crate, with the order's rules for what it has no notion of: list numbers, room and the refusals.

use skiplist::comparator::OrdComparator;
use skiplist::level_generator::geometric::Given;
use skiplist::ordered_skip_list::{OrderedSkipList, link_call};
use std::fmt::Write as _;

type List = OrderedSkipList<u32, 16>;

/// Words of the largest arena; no more are lent.
const LEND: u32 = 2_359_844;

#[derive(Clone, Copy, PartialEq)]
enum State {
    /// Words that are all alike: no arena.
    Filled,
    /// A set-up arena, whose lists are known.
    Up,
    /// Words from outside the calls: unknown to the crate.
    Foreign,
}

pub struct World {
    lent: u64,
    state: State,
    levels: u32,
    room: usize,
    lists: Vec<List>,
}

pub enum Answer {
    Silent,
    Unknown,
    Lists(String),
    No(u32),
    With(u32, Vec<u64>),
}

use Answer::{Lists, No, Silent, Unknown, With};

fn empty(levels: u32) -> List {
    List::with_parts(OrdComparator::default(), Given::new(levels as usize))
}

impl World {
    pub fn new() -> Self {
        Self {
            lent: 0,
            state: State::Filled,
            levels: 1,
            room: 0,
            lists: Vec::new(),
        }
    }

    fn free(&self) -> usize {
        self.room - self.lists.iter().map(List::len).sum::<usize>()
    }

    /// The refusals 1, 3 and 4, which every call on one or two lists tests first.
    fn named(&self, names: &[u32]) -> Result<(), u32> {
        if self.state == State::Filled {
            return Err(1);
        }
        if names.iter().any(|&n| n as usize >= self.lists.len()) {
            return Err(3);
        }
        if names.len() == 2 && names[0] == names[1] {
            return Err(4);
        }
        Ok(())
    }

    pub fn setup(&mut self, l: u32, m: u32, c: u32) -> Answer {
        let ranges = (1..=16).contains(&l) && (1..=16).contains(&m) && (1..=65535).contains(&c);
        if !ranges || u64::from(8 + (l + c) * (4 + 2 * m)) != self.lent {
            return No(2);
        }
        self.state = State::Up;
        self.levels = m;
        self.room = c as usize;
        self.lists = (0..l).map(|_| empty(m)).collect();
        No(0)
    }

    fn search(&self, list: u32, key: u32, allowance: u32) -> Answer {
        let list = &self.lists[list as usize];
        let (found, rank, tally) = list.walk(&key);
        let index = if found { rank - 1 } else { rank };
        assert_eq!(list.rank(&key), found.then_some(index));
        if tally > allowance {
            return With(10, vec![0, 0, allowance.into()]);
        }
        With(0, vec![found.into(), index as u64, tally.into()])
    }

    fn read(&self, list: u32, index: usize) -> Answer {
        match self.lists[list as usize].get_by_index(index) {
            Some(&key) => With(0, vec![key.into()]),
            None => With(8, vec![0]),
        }
    }

    fn insert(&mut self, list: u32, key: u32, height: u32) -> Answer {
        if height > self.levels {
            return No(5);
        }
        if self.free() == 0 {
            return No(6);
        }
        let list = &mut self.lists[list as usize];
        list.generator_mut().hand(height as usize);
        list.insert(key);
        No(0)
    }

    fn split(&mut self, from: u32, to: u32, at: usize) -> Answer {
        if !self.lists[to as usize].is_empty() {
            return No(7);
        }
        if at > self.lists[from as usize].len() {
            return No(8);
        }
        let moved = self.lists[from as usize].split_off_index(at);
        self.lists[to as usize] = moved;
        No(0)
    }

    fn split_key(&mut self, from: u32, to: u32, key: u32) -> Answer {
        if !self.lists[to as usize].is_empty() {
            return No(7);
        }
        let moved = self.lists[from as usize].split_off(&key);
        self.lists[to as usize] = moved;
        No(0)
    }

    fn append(&mut self, a: u32, b: u32) -> Answer {
        let mut other = std::mem::replace(&mut self.lists[b as usize], empty(self.levels));
        let heights = other.heights();
        let list = &mut self.lists[a as usize];
        for &h in &heights {
            list.generator_mut().hand(h);
        }
        list.append(&mut other);
        let left = list.generator_mut().take_back();
        assert!(left == 0 || left == heights.len());
        self.lists[b as usize] = other;
        No(0)
    }

    fn level(&mut self, list: u32) -> Answer {
        let list = &mut self.lists[list as usize];
        let mut keys = Vec::with_capacity(list.len());
        while let Some(key) = list.pop_first() {
            keys.push(key);
        }
        for (i, key) in keys.into_iter().enumerate().rev() {
            let height = (i as u32 + 1).trailing_zeros().min(self.levels);
            list.generator_mut().hand(height as usize);
            list.insert(key);
        }
        No(0)
    }

    fn remove(&mut self, list: u32, index: usize) -> Answer {
        let list = &mut self.lists[list as usize];
        if index >= list.len() {
            return With(8, vec![0]);
        }
        With(0, vec![list.remove(index).into()])
    }

    fn middle(&self, list: u32) -> Answer {
        let list = &self.lists[list as usize];
        match list.len() {
            0 => With(8, vec![0]),
            n => With(0, vec![u64::from(list[(n - 1) / 2]) + u64::from(list[n / 2])]),
        }
    }

    fn truncate(&mut self, list: u32, length: usize) -> Answer {
        self.lists[list as usize].truncate(length);
        No(0)
    }

    fn clear(&mut self, list: u32) -> Answer {
        self.lists[list as usize].clear();
        No(0)
    }

    fn remove_key(&mut self, list: u32, key: u32) -> Answer {
        match self.lists[list as usize].take_first(&key) {
            Some(key) => With(0, vec![key.into()]),
            None => With(9, vec![0]),
        }
    }

    /// An arena call; `names` says how many of its first numbers are lists.
    pub fn arena_call(&mut self, item: &str, names: usize, n: &[u32]) -> Answer {
        if self.state == State::Foreign {
            return Unknown;
        }
        if let Err(no) = self.named(&n[..names]) {
            return match item {
                "search" => With(no, vec![0, 0, 0]),
                "read" | "removekey" | "removeat" | "middle" => With(no, vec![0]),
                _ => No(no),
            };
        }
        match item {
            "search" => self.search(n[0], n[1], n[2]),
            "read" => self.read(n[0], n[1] as usize),
            "insert" => self.insert(n[0], n[1], n[2]),
            "removekey" => self.remove_key(n[0], n[1]),
            "removeat" => self.remove(n[0], n[1] as usize),
            "truncate" => self.truncate(n[0], n[1] as usize),
            "clear" => self.clear(n[0]),
            "splitat" => self.split(n[0], n[1], n[2] as usize),
            "splitkey" => self.split_key(n[0], n[1], n[2]),
            "append" => self.append(n[0], n[1]),
            "middle" => self.middle(n[0]),
            _ => self.level(n[0]),
        }
    }

    /// The lists, each after a bar, as KEY/HEIGHT.
    pub fn dump(&self) -> Answer {
        if self.state != State::Up {
            return Unknown;
        }
        let mut out = String::from("-");
        for list in &self.lists {
            out.push_str(" |");
            for (i, height) in list.heights().into_iter().enumerate() {
                write!(out, " {}/{height}", list[i]).expect("text");
            }
        }
        Lists(out)
    }

    pub fn link(distance: u32, by: i8) -> Answer {
        match link_call(distance as usize, by) {
            // the crate's distances are of pointer width, ours of 32 bits
            Ok(d) if d > u32::MAX as usize => With(12, vec![0]),
            Ok(d) => With(0, vec![d as u64]),
            Err(no) => With(no, vec![0]),
        }
    }

    /// The items without an answer line; None for a line that is no item.
    pub fn lend(&mut self, item: &str, n: &[u32]) -> Option<Answer> {
        match (item, n) {
            ("new", &[len, _]) if len <= LEND => {
                self.lent = u64::from(len);
                self.state = State::Filled;
            }
            ("words", n) if !n.is_empty() && n.len() <= LEND as usize => {
                self.lent = n.len() as u64;
                self.state = State::Foreign;
            }
            ("poke", &[i, _]) if u64::from(i) < self.lent => self.state = State::Foreign,
            _ => return None,
        }
        Some(Silent)
    }

    pub fn check(&self) -> Answer {
        match self.state {
            State::Foreign => Unknown,
            state => No(u32::from(state == State::Up)),
        }
    }

    /// The crate's own structural test of the shorter lists.
    pub fn assert_well_formed(&self) {
        for list in self.lists.iter().filter(|list| list.len() <= 64) {
            list.assert_well_formed();
        }
    }
}
