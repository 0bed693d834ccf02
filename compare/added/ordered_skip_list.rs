//! The ordered list's own file, whose text is not at hand: the struct with the fields that
//! `access.rs`, `insert_remove.rs` and `structural.rs` use, its constructor, and views for comparing.

use alloc::boxed::Box;
use core::{cell::Cell, cmp::Ordering, ptr::NonNull};
use std::vec::Vec;

use crate::{
    comparator::{Comparator, OrdComparator},
    level_generator::{LevelGenerator, geometric::Given},
    node::{
        Node,
        link::{Link, LinkError},
        visitor::{OrdIndexVisitor, Visitor},
    },
};

mod access;
mod insert_remove;
mod structural;

pub struct OrderedSkipList<
    T,
    const N: usize = 16,
    C: Comparator<T> = OrdComparator,
    G: LevelGenerator = Given,
> {
    head: NonNull<Node<T, N>>,
    tail: Option<NonNull<Node<T, N>>>,
    len: usize,
    comparator: C,
    generator: G,
}

impl<T, C: Comparator<T>, G: LevelGenerator, const N: usize> OrderedSkipList<T, N, C, G> {
    pub fn with_parts(comparator: C, generator: G) -> Self {
        let head = Box::new(Node::new(generator.total()));
        Self {
            // SAFETY: `Box::into_raw` never answers null; freed in `Drop`.
            head: unsafe { NonNull::new_unchecked(Box::into_raw(head)) },
            tail: None,
            len: 0,
            comparator,
            generator,
        }
    }

    pub fn len(&self) -> usize {
        self.len
    }

    pub fn is_empty(&self) -> bool {
        self.len == 0
    }

    pub fn generator_mut(&mut self) -> &mut G {
        &mut self.generator
    }

    fn head_ref(&self) -> &Node<T, N> {
        // SAFETY: the head lives as long as the list.
        unsafe { self.head.as_ref() }
    }

    fn head_mut(&mut self) -> &mut Node<T, N> {
        // SAFETY: the head lives as long as the list and `self` is borrowed alone.
        unsafe { self.head.as_mut() }
    }

    /// The key walk of `ord_index.rs`: whether it found `target`, the rank at which it ended, and
    /// how many comparisons it made.
    pub fn walk(&self, target: &T) -> (bool, usize, u32) {
        let tally = Cell::new(0);
        let cmp = |v: &T, t: &T| -> Ordering {
            tally.set(tally.get() + 1);
            self.comparator.compare(v, t)
        };
        let mut visitor = OrdIndexVisitor::new(self.head_ref(), target, cmp);
        visitor.traverse();
        (visitor.found(), visitor.current_rank(), tally.get())
    }

    /// The heights of the nodes, first to last.
    pub fn heights(&self) -> Vec<usize> {
        let mut out = Vec::with_capacity(self.len);
        let mut node = self.head_ref().next_as_ref();
        while let Some(n) = node {
            out.push(n.level());
            node = n.next_as_ref();
        }
        out
    }

    /// The crate's own test of a list's links, distances, length and last node.
    #[cfg(test)]
    pub fn assert_well_formed(&self) {
        // SAFETY: the list and all its nodes are live.
        unsafe { Node::assert_well_formed(self.head, self.len, self.tail) };
    }
}

impl<T, C: Comparator<T>, G: LevelGenerator, const N: usize> Drop for OrderedSkipList<T, N, C, G> {
    fn drop(&mut self) {
        self.clear();
        // SAFETY: made by `Box::into_raw` and owned by this list alone.
        drop(unsafe { Box::from_raw(self.head.as_ptr()) });
    }
}

/// A call of `link.rs` on a number alone: made with `by` 0, raised with 1, lowered with -1. An error
/// answers its refusal number.
pub fn link_call(distance: usize, by: i8) -> Result<usize, u32> {
    let number = |e: LinkError| match e {
        LinkError::InvalidDistance => 11,
        LinkError::DistanceOverflow => 12,
        LinkError::DistanceUnderflow => 13,
    };
    let mut link = Link::<u32, 1>::new(NonNull::dangling(), distance).map_err(number)?;
    match by {
        0 => Ok(link.distance()),
        1 => link.increment_distance(),
        _ => link.decrement_distance(),
    }
    .map(usize::from)
    .map_err(number)
}
