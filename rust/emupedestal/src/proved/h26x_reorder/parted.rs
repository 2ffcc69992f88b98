// Made from crates/h26x_reorder/src/parted.rt by tools/to-rust.

//! A list in two parts, which is parted where values come again and again.

use crate::support::TryDeque;
use crate::support::{AllocError, AllocFailed};
use alloc::collections::VecDeque;
use core::mem;

/// How near to each other two places count as one, and how many values are too few to part for.
const NEAR: usize = 32;

/// How many values insertions have to have moved for each one that a parting moves. One that is
/// moved by itself takes as long as four that an insertion moves as a block, so partings add at most
/// a tenth to what insertions take.
const PAID: usize = 40;

/// A list in two parts, the second of which is mostly empty. Where values come again and again before
/// many others, it is parted there, so that those that follow move none: once those that came there
/// have moved so many that the parting adds little to that.
#[derive(Debug, Clone)]
pub(crate) struct Parted<T> {
    front: VecDeque<T>,
    back: VecDeque<T>,
    /// Where the latest value was put that others stood behind.
    latest: usize,
    /// How many values moved for those that came near there one after the other, since the list was
    /// last parted.
    moved: usize,
}

impl<T> Parted<T> {
    /// An empty list.
    pub(crate) fn new() -> Self {
        Parted {
            front: VecDeque::new(),
            back: VecDeque::new(),
            latest: 0,
            moved: 0,
        }
    }

    /// How many values it has.
    #[inline]
    pub(crate) fn len(&self) -> usize {
        self.front.len() + self.back.len()
    }

    /// Whether it has none.
    #[inline]
    pub(crate) fn is_empty(&self) -> bool {
        self.front.is_empty() && self.back.is_empty()
    }

    /// The value at a place.
    #[inline]
    pub(crate) fn get(&self, place: usize) -> &T {
        let len = self.front.len();
        if place < len {
            &self.front[place]
        } else {
            &self.back[place - len]
        }
    }

    /// The first of all.
    #[inline]
    pub(crate) fn first(&self) -> Option<&T> {
        match self.front.front() {
            Some(value) => Some(value),
            None => self.back.front(),
        }
    }

    /// Takes out the first of all. Where the front ends, the back is what is left, and takes its
    /// place. Both keep their memory.
    #[inline]
    pub(crate) fn pop_first(&mut self) -> Option<T> {
        if self.front.is_empty() && !self.back.is_empty() {
            mem::swap(&mut self.front, &mut self.back);
        }
        self.front.pop_front()
    }

    /// Puts a value at a place. One that comes last of all where there is no back, as most do, leaves
    /// what is known of the latest. Without memory all stays as it was, and the value comes back.
    #[inline]
    pub(crate) fn try_insert(&mut self, place: usize, value: T) -> Result<(), AllocFailed<T>> {
        // Most come last of all, and mostly there is no back.
        if self.back.is_empty() && place == self.front.len() {
            return self.front.try_push_back(value);
        }
        self.insert_within(place, value)
    }

    /// Puts two values last of all, one behind the other. Without memory for both all stays as it was.
    pub(crate) fn push_two(&mut self, first: T, second: T) -> Result<(), AllocError> {
        self.back.try_reserve(2)?;
        self.back.push_back(first);
        self.back.push_back(second);
        Ok(())
    }

    /// So of one that others may stand behind, or before which there is a back.
    #[inline(never)]
    fn insert_within(&mut self, place: usize, value: T) -> Result<(), AllocFailed<T>> {
        self.part_for(place);
        self.join_for_room(place);
        let len = self.front.len();
        if place <= len {
            self.front.try_insert(place, value)
        } else {
            self.back.try_insert(place - len, value)
        }
    }

    /// Drops the values. Both parts keep their memory.
    pub(crate) fn clear(&mut self) {
        self.front.clear();
        self.back.clear();
    }

    /// Counts what a value moves that is to come to a place. Where those that came near there have
    /// paid for it, parts the list there, so that what comes there next moves nothing.
    fn part_for(&mut self, place: usize) {
        if place.abs_diff(self.latest) > NEAR {
            self.moved = 0;
        }
        self.latest = place;
        let len = self.front.len();
        let is_front = place <= len;
        let (before, behind) = if is_front {
            (place, len - place)
        } else {
            (place - len, self.len() - place)
        };
        self.moved = self.moved.saturating_add(before.min(behind));
        let count = if is_front { behind } else { before };
        if count <= NEAR || count > self.moved / PAID {
            return;
        }
        self.moved = 0;
        if is_front {
            move_behind(&mut self.front, &mut self.back, count);
        } else {
            move_before(&mut self.front, &mut self.back, count);
        }
    }

    /// Where a value is to go into the back, and there is no memory for that, joins both in the
    /// front, which may have room. The back then keeps no memory.
    fn join_for_room(&mut self, place: usize) {
        if place <= self.front.len() || self.back.try_reserve(1).is_ok() {
            return;
        }
        if self.front.try_append(&mut self.back).is_ok() {
            self.back = VecDeque::new();
        }
    }
}

/// Moves the last of the front, so many, before the back, if there is memory.
fn move_behind<T>(front: &mut VecDeque<T>, back: &mut VecDeque<T>, count: usize) {
    if back.try_reserve(count).is_err() {
        return;
    }
    for _ in 0..count {
        if let Some(value) = front.pop_back() {
            back.push_front(value);
        }
    }
}

/// Moves the first of the back, so many, behind the front, if there is memory.
fn move_before<T>(front: &mut VecDeque<T>, back: &mut VecDeque<T>, count: usize) {
    if front.try_reserve(count).is_err() {
        return;
    }
    for _ in 0..count {
        if let Some(value) = back.pop_front() {
            front.push_back(value);
        }
    }
}
