//! The crate's ordered lists with nodes of 8 levels.

use crate::{Call, Engine, LEVELS, levelled};
use skiplist::comparator::OrdComparator;
use skiplist::level_generator::geometric::Given;
use skiplist::ordered_skip_list::OrderedSkipList;

type List = OrderedSkipList<u32, { LEVELS as usize }>;

pub struct Lists(List, List);

fn list(keys: &[u32]) -> List {
    let mut list = List::with_parts(OrdComparator::default(), Given::new(LEVELS as usize));
    // last to first, since a key is put before its equals
    for (i, &key) in keys.iter().enumerate().rev() {
        list.generator_mut().hand(levelled(i as u32 + 1) as usize);
        list.insert(key);
    }
    list
}

impl Engine for Lists {
    fn new(a: &[u32], b: &[u32]) -> Self {
        Self(list(a), list(b))
    }

    fn hand(&mut self, call: Call) {
        match call {
            Call::Insert { height, .. } => self.0.generator_mut().hand(height as usize),
            Call::Append => {
                for height in self.1.heights() {
                    self.0.generator_mut().hand(height);
                }
            }
            _ => (),
        }
    }

    #[inline]
    fn call(&mut self, call: Call) -> (u32, u32) {
        match call {
            Call::Search { key } => self.0.rank(&key).map_or((0, 0), |index| (1, index as u32)),
            Call::Read { index } => self.0.get_by_index(index as usize).map_or((8, 0), |&key| (0, key)),
            Call::Insert { key, .. } => {
                self.0.insert(key);
                (0, 0)
            }
            Call::RemoveKey { key } => self.0.take_first(&key).map_or((9, 0), |key| (0, key)),
            Call::RemoveAt { index } => (0, self.0.remove(index as usize)),
            Call::Truncate { length } => {
                self.0.truncate(length as usize);
                (0, 0)
            }
            Call::SplitAt { index } => {
                let moved = self.0.split_off_index(index as usize);
                std::mem::forget(std::mem::replace(&mut self.1, moved));
                (0, 0)
            }
            Call::SplitKey { key } => {
                let moved = self.0.split_off(&key);
                std::mem::forget(std::mem::replace(&mut self.1, moved));
                (0, 0)
            }
            Call::Append => {
                self.0.append(&mut self.1);
                (0, 0)
            }
            Call::Check => (0, 0),
        }
    }

    fn keys(&mut self, list: u32) -> Vec<u32> {
        let list = if list == 0 { &self.0 } else { &self.1 };
        (0..list.len()).map(|i| list[i]).collect()
    }
}
