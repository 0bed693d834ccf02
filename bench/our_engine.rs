//! The proved library as an engine of the driver: the public calls, and the core functions that they call once the arena has passed the
//! check and the arguments are accepted.

use crate::c_calls::{
    core_append, core_insert, core_read, core_remove_at, core_remove_key, core_search, core_split_at, core_split_key, core_truncate, raw,
};
use crate::{Call, Engine, LEVELS, NODES};

pub struct Public(Vec<u32>);
pub struct Core(Public);

impl Engine for Public {
    fn new(a: &[u32], b: &[u32]) -> Self {
        let words = 8 + (2 + NODES) * (4 + 2 * LEVELS);
        let mut w = vec![0; words as usize];
        let (p, n) = (w.as_mut_ptr(), w.len());
        // SAFETY: `p` and `n` are the whole of `w`, as in every call below; out-parameters are local variables.
        unsafe {
            assert_eq!(raw::ska_set_up(p, n, 2, LEVELS, NODES), 0);
            for (list, keys) in [(0, a), (1, b)] {
                for &key in keys {
                    assert_eq!(raw::ska_insert(p, n, list, key, 0), 0);
                }
                assert_eq!(raw::ska_level(p, n, list), 0);
            }
        }
        Self(w)
    }

    fn hand(&mut self, _: Call) {}

    #[inline]
    fn call(&mut self, call: Call) -> (u32, u32) {
        let (w, n) = (self.0.as_mut_ptr(), self.0.len());
        let (mut found, mut value, mut tally) = (0, 0, 0);
        // SAFETY: as in `new`.
        unsafe {
            match call {
                Call::Search { key } => {
                    raw::ska_search(w, n, 0, key, u32::MAX, &mut found, &mut value, &mut tally);
                    (found, if found == 1 { value } else { 0 })
                }
                Call::Read { index } => (raw::ska_read(w, n, 0, index, &mut value), value),
                Call::Insert { key, height } => (raw::ska_insert(w, n, 0, key, height), 0),
                Call::RemoveKey { key } => (raw::ska_remove_key(w, n, 0, key, &mut value), value),
                Call::RemoveAt { index } => (raw::ska_remove_at(w, n, 0, index, &mut value), value),
                Call::Truncate { length } => (raw::ska_truncate(w, n, 0, length), 0),
                Call::SplitAt { index } => (raw::ska_split_at(w, n, 0, 1, index), 0),
                Call::SplitKey { key } => (raw::ska_split_key(w, n, 0, 1, key), 0),
                Call::Append => (raw::ska_append(w, n, 0, 1), 0),
                Call::Check => (1 - raw::ska_check(w, n), 0),
            }
        }
    }

    fn keys(&mut self, list: u32) -> Vec<u32> {
        let (w, n) = (self.0.as_mut_ptr(), self.0.len());
        let read = |index| {
            let mut key = 0;
            // SAFETY: as in `new`.
            (unsafe { raw::ska_read(w, n, list, index, &mut key) } == 0).then_some(key)
        };
        (0..).map_while(read).collect()
    }
}

fn done(_: ()) -> (u32, u32) {
    (0, 0)
}

impl Engine for Core {
    fn new(a: &[u32], b: &[u32]) -> Self {
        Self(Public::new(a, b))
    }

    fn hand(&mut self, _: Call) {}

    #[inline]
    fn call(&mut self, call: Call) -> (u32, u32) {
        let (w, n, m) = (self.0.0.as_mut_ptr(), self.0.0.len(), LEVELS as usize);
        // SAFETY: as in `Public`; the words pass, since the public calls and these leave them so, and no case has a call that is refused.
        unsafe {
            match call {
                Call::Search { key } => (0, core_search(w, n, m, 0, key, u32::MAX)),
                Call::Read { index } => (0, core_read(w, n, m, 0, index)),
                Call::Insert { key, height } => done(core_insert(w, n, m, 0, key, height)),
                Call::RemoveKey { key } => (0, core_remove_key(w, n, m, 0, key)),
                Call::RemoveAt { index } => (0, core_remove_at(w, n, m, 0, index)),
                Call::Truncate { length } => done(core_truncate(w, n, m, 0, length)),
                Call::SplitAt { index } => done(core_split_at(w, n, m, 0, 1, index)),
                Call::SplitKey { key } => done(core_split_key(w, n, m, 0, 1, key)),
                Call::Append => done(core_append(w, n, m, 0, 1)),
                Call::Check => (0, 0),
            }
        }
    }

    // the place alone does not say whether the key is there; word 8 is the length of list 0
    fn answer(&mut self, call: Call) -> (u32, u32) {
        let (x, y) = self.call(call);
        match call {
            Call::Search { key } if y < self.0.0[8] && self.call(Call::Read { index: y }).1 == key => (1, y),
            Call::Search { .. } => (0, 0),
            _ => (x, y),
        }
    }

    fn keys(&mut self, list: u32) -> Vec<u32> {
        self.0.keys(list)
    }
}
