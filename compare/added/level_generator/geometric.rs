//! Stands in for the crate's random generator, which needs the crate `rand`: heights are given by
//! the caller, in the order in which they were handed in.

use alloc::collections::VecDeque;

use crate::level_generator::LevelGenerator;

/// A level generator that hands out the caller's heights.
#[derive(Clone, Debug)]
pub struct Given {
    total: usize,
    heights: VecDeque<usize>,
}

impl Given {
    #[must_use]
    pub fn new(total: usize) -> Self {
        Self {
            total,
            heights: VecDeque::new(),
        }
    }

    pub fn hand(&mut self, height: usize) {
        self.heights.push_back(height);
    }

    /// Takes back the heights that were not used and tells how many they were.
    pub fn take_back(&mut self) -> usize {
        let left = self.heights.len();
        self.heights.clear();
        left
    }
}

impl LevelGenerator for Given {
    fn total(&self) -> usize {
        self.total
    }

    fn level(&mut self) -> usize {
        self.heights.pop_front().expect("a height was handed in")
    }
}
