//! What the proved modules ask of Rattle's std and Rust's lacks: fallible calls of lists, and the error of a
//! request for memory. Such a call answers an error where memory lacks, and changes nothing then; behind its
//! `try_reserve` std's own call takes no memory. And when two open texts are equal.

use crate::proved::h26x_depacketizer::OpenText;
use alloc::collections::{TryReserveError, VecDeque};
use alloc::vec::Vec;
use core::fmt;

// By their paths, since the C library has this file as a module of its own.
#[cfg(feature = "sdp")]
#[path = "support/base64.rs"]
pub mod base64;
#[cfg(feature = "sdp")]
#[path = "support/fault.rs"]
mod fault;
#[cfg(feature = "sdp")]
#[path = "support/hex.rs"]
pub mod hex;
#[cfg(feature = "sdp")]
#[path = "support/texts.rs"]
mod texts;

#[cfg(feature = "sdp")]
pub use texts::{TryText, try_format};

/// Where the run stands makes no difference.
impl PartialEq for OpenText {
    fn eq(&self, other: &Self) -> bool {
        self.text() == other.text() && self.run() == other.run()
    }
}

impl Eq for OpenText {}

/// There was no memory.
#[derive(Debug, Clone, Copy, PartialEq, Eq)]
pub struct AllocError;

impl From<TryReserveError> for AllocError {
    #[inline]
    fn from(_: TryReserveError) -> Self {
        AllocError
    }
}

/// There was no memory for a value, which comes back.
#[derive(Debug)]
pub struct AllocFailed<T> {
    /// The value.
    pub value: T,
}

impl<T> From<AllocFailed<T>> for AllocError {
    #[inline]
    fn from(_: AllocFailed<T>) -> Self {
        AllocError
    }
}

impl From<TryReserveError> for crate::PacketError {
    #[inline]
    fn from(_: TryReserveError) -> Self {
        Self::OutOfMemory
    }
}

/// The calls of `Vec` that want memory.
pub trait TryVec<T>: Sized {
    /// A list without items, with room for so many.
    fn try_with_room(capacity: usize) -> Result<Self, AllocError>;

    /// Appends an item.
    fn try_push(&mut self, item: T) -> Result<(), AllocError>;

    /// Moves the items of another list to the end of this one.
    #[cfg_attr(not(test), allow(dead_code))]
    fn try_append(&mut self, other: &mut Vec<T>) -> Result<(), AllocError>;

    /// A list of copies of items.
    fn try_from_slice(items: &[T]) -> Result<Self, AllocError>
    where
        T: Copy;
}

impl<T> TryVec<T> for Vec<T> {
    #[inline]
    fn try_with_room(capacity: usize) -> Result<Self, AllocError> {
        let mut made = Vec::new();
        made.try_reserve_exact(capacity)?;
        Ok(made)
    }

    #[inline(always)]
    fn try_push(&mut self, item: T) -> Result<(), AllocError> {
        self.try_reserve(1)?;
        self.push(item);
        Ok(())
    }

    #[inline]
    fn try_append(&mut self, other: &mut Vec<T>) -> Result<(), AllocError> {
        self.try_reserve(other.len())?;
        self.append(other);
        Ok(())
    }

    #[inline]
    fn try_from_slice(items: &[T]) -> Result<Self, AllocError>
    where
        T: Copy,
    {
        let mut made = Self::try_with_room(items.len())?;
        made.extend_from_slice(items);
        Ok(made)
    }
}

/// Room for so many items more: a comparison where it is there, since std's `try_reserve` is a call wherever the
/// compiler has put that one.
#[inline(always)]
pub fn try_reserve<T>(list: &mut Vec<T>, count: usize) -> Result<(), AllocError> {
    if list.capacity() - list.len() < count {
        list.try_reserve(count)?;
    }
    Ok(())
}

/// Bytes appended to others.
pub trait AppendBytes {
    /// Appends bytes for which there is room.
    fn append_bytes(&mut self, bytes: &[u8]);

    /// Appends bytes.
    fn try_extend_from_slice(&mut self, bytes: &[u8]) -> Result<(), AllocError>;
}

impl AppendBytes for Vec<u8> {
    #[cfg(feature = "std")]
    #[inline(always)]
    fn append_bytes(&mut self, bytes: &[u8]) {
        // It is `extend_from_slice`, but always inlined, wherever the compiler has put that one: half of the
        // time that a small packet takes. It answers no error.
        let _ = std::io::Write::write_all(self, bytes);
    }

    #[cfg(not(feature = "std"))]
    #[inline(always)]
    fn append_bytes(&mut self, bytes: &[u8]) {
        self.extend_from_slice(bytes);
    }

    #[inline]
    fn try_extend_from_slice(&mut self, bytes: &[u8]) -> Result<(), AllocError> {
        self.try_reserve(bytes.len())?;
        self.append_bytes(bytes);
        Ok(())
    }
}

/// The call of a slice that wants memory.
pub trait TrySlice<T> {
    /// A list of copies of the items.
    fn try_to_vec(&self) -> Result<Vec<T>, AllocError>;
}

impl<T: Copy> TrySlice<T> for [T] {
    #[inline]
    fn try_to_vec(&self) -> Result<Vec<T>, AllocError> {
        Vec::try_from_slice(self)
    }
}

/// The calls of `VecDeque` that want memory.
pub trait TryDeque<T> {
    /// Puts an item behind the others.
    fn try_push_back(&mut self, item: T) -> Result<(), AllocFailed<T>>;

    /// Puts an item at a place.
    fn try_insert(&mut self, place: usize, item: T) -> Result<(), AllocFailed<T>>;

    /// Moves the items of another queue to the end of this one.
    fn try_append(&mut self, other: &mut VecDeque<T>) -> Result<(), AllocError>;
}

impl<T> TryDeque<T> for VecDeque<T> {
    #[inline]
    fn try_push_back(&mut self, item: T) -> Result<(), AllocFailed<T>> {
        if self.try_reserve(1).is_err() {
            return Err(AllocFailed { value: item });
        }
        self.push_back(item);
        Ok(())
    }

    #[inline]
    fn try_insert(&mut self, place: usize, item: T) -> Result<(), AllocFailed<T>> {
        if self.try_reserve(1).is_err() {
            return Err(AllocFailed { value: item });
        }
        self.insert(place, item);
        Ok(())
    }

    #[inline]
    fn try_append(&mut self, other: &mut VecDeque<T>) -> Result<(), AllocError> {
        self.try_reserve(other.len())?;
        self.append(other);
        Ok(())
    }
}

/// Packets of so many bytes, which aren't shown.
#[allow(dead_code, reason = "the C library has no type with packets")]
pub struct Counts<'a>(pub &'a [Vec<u8>]);

impl fmt::Debug for Counts<'_> {
    fn fmt(&self, f: &mut fmt::Formatter<'_>) -> fmt::Result {
        f.debug_list()
            .entries(self.0.iter().map(|it| Count(it.len())))
            .finish()
    }
}

/// So many bytes, which aren't shown.
pub struct Count(pub usize);

impl fmt::Debug for Count {
    fn fmt(&self, f: &mut fmt::Formatter<'_>) -> fmt::Result {
        write!(f, "{} bytes", self.0)
    }
}
