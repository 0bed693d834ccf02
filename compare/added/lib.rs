//! Root of the crate's build: only the modules that the ordered list needs. The crate's own root
//! also names collections whose text is not at hand.
#![allow(dead_code, unused_imports, unfulfilled_lint_expectations)]

extern crate alloc;

pub mod comparator;
pub mod level_generator;
mod node;
pub mod ordered_skip_list;
