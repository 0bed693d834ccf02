//! The proved library through its C interface, where a slice crosses as pointer and length: the public calls (`raw`), and the core
//! functions of `core_c`, which ask that the arena has passed the check and that the arguments are accepted.
#![allow(dead_code)]

#[path = "../examples/rust/raw.rs"]
pub mod raw;

unsafe extern "C" {
    pub fn core_search(w: *const u32, n: usize, m: usize, list: u32, key: u32, allowance: u32) -> u32;
    pub fn core_read(w: *const u32, n: usize, m: usize, list: u32, index: u32) -> u32;
    pub fn core_insert(w: *mut u32, n: usize, m: usize, list: u32, key: u32, height: u32);
    pub fn core_remove_key(w: *mut u32, n: usize, m: usize, list: u32, key: u32) -> u32;
    pub fn core_remove_at(w: *mut u32, n: usize, m: usize, list: u32, index: u32) -> u32;
    pub fn core_truncate(w: *mut u32, n: usize, m: usize, list: u32, count: u32);
    pub fn core_split_at(w: *mut u32, n: usize, m: usize, from: u32, to: u32, index: u32);
    pub fn core_split_key(w: *mut u32, n: usize, m: usize, from: u32, to: u32, key: u32);
    pub fn core_append(w: *mut u32, n: usize, m: usize, a: u32, b: u32);
}
