//! The calls of include/ska.h as they are: a slice crosses as pointer and length.

extern "C" {
    pub fn ska_set_up(w: *mut u32, n: usize, lists: u32, levels: u32, nodes: u32) -> u32;
    pub fn ska_check(w: *const u32, n: usize) -> u32;
    pub fn ska_search(
        w: *const u32,
        n: usize,
        list: u32,
        key: u32,
        allowance: u32,
        found: *mut u32,
        place: *mut u32,
        tally: *mut u32,
    ) -> u32;
    pub fn ska_read(w: *const u32, n: usize, list: u32, index: u32, key: *mut u32) -> u32;
    pub fn ska_insert(w: *mut u32, n: usize, list: u32, key: u32, height: u32) -> u32;
    pub fn ska_remove_key(w: *mut u32, n: usize, list: u32, key: u32, removed: *mut u32) -> u32;
    pub fn ska_remove_at(w: *mut u32, n: usize, list: u32, index: u32, removed: *mut u32) -> u32;
    pub fn ska_truncate(w: *mut u32, n: usize, list: u32, count: u32) -> u32;
    pub fn ska_clear(w: *mut u32, n: usize, list: u32) -> u32;
    pub fn ska_split_at(w: *mut u32, n: usize, from: u32, to: u32, index: u32) -> u32;
    pub fn ska_split_key(w: *mut u32, n: usize, from: u32, to: u32, key: u32) -> u32;
    pub fn ska_append(w: *mut u32, n: usize, a: u32, b: u32) -> u32;
    pub fn ska_middle(w: *const u32, n: usize, list: u32, twice: *mut u64) -> u32;
    pub fn ska_level(w: *mut u32, n: usize, list: u32) -> u32;
    pub fn ska_link_make(d: u32, distance: *mut u32) -> u32;
    pub fn ska_link_raise(d: u32, distance: *mut u32) -> u32;
    pub fn ska_link_lower(d: u32, distance: *mut u32) -> u32;
}
