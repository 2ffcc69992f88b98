// Made from crates/h26x_depacketizer/src/run.rt by tools/to-rust.

//! The data of the fragments since the latest start (RFC 6184, 5.8; RFC 7798, 4.4.3; RFC 9328,
//! 4.3.3).

use crate::proved::h26x_core::PacketError;
use crate::support::{AppendBytes, TryVec};
use alloc::vec::Vec;

/// How many bytes of memory a run may have whatever it holds, sixteen of the largest packets: so many a
/// closed one keeps at most.
const KEPT_MEMORY: usize = 1_048_576;

/// How many bytes of memory a run of so many bytes may have.
#[inline]
pub(crate) fn most_memory(len: usize) -> usize {
    KEPT_MEMORY.max(len.saturating_mul(2))
}

/// Memory of so many bytes, with two lists of data one behind the other at its front. It asks once.
pub(crate) fn memory_of(size: usize, front: &[u8], body: &[u8]) -> Result<Vec<u8>, PacketError> {
    let mut memory = Vec::try_with_room(size)?;
    memory.append_bytes(front);
    memory.append_bytes(body);
    memory.resize(size, 0);
    if memory.capacity() > size {
        return Err(PacketError::OutOfMemory);
    }
    Ok(memory)
}

/// Writes these data over those from here on.
#[inline]
fn put_at(bytes: &mut [u8], at: usize, body: &[u8]) {
    bytes[at..at + body.len()].copy_from_slice(body);
}

/// How many bytes a buffer has that takes the place of a smaller one, for data that end there: twice as
/// many, but where a closed run keeps it no more than that keeps, so that a run of a megabyte has its
/// memory again.
#[inline]
fn grown_size(room: usize, end: usize) -> usize {
    let doubled = room.saturating_mul(2);
    if end > KEPT_MEMORY {
        end.max(doubled)
    } else {
        end.max(doubled.min(KEPT_MEMORY))
    }
}

/// Has these data from here on in another buffer, since this one is too small. Out of the way of those
/// for which there is room.
#[cold]
#[inline(never)]
fn grow(bytes: &mut Vec<u8>, at: usize, body: &[u8]) -> Result<(), PacketError> {
    let size = grown_size(bytes.len(), at + body.len());
    *bytes = memory_of(size, &bytes[..at], body)?;
    Ok(())
}

/// Has these data in a buffer from here on. Where it is too small another one takes its place. The
/// answer is where they end.
#[inline(always)]
fn put(bytes: &mut Vec<u8>, at: usize, body: &[u8]) -> Result<usize, PacketError> {
    let end = at + body.len();
    if end > bytes.len() {
        grow(bytes, at, body)?;
    } else {
        put_at(bytes, at, body);
    }
    Ok(end)
}

/// The data of an open run, in a buffer that a closed one keeps, of `KEPT_MEMORY` bytes at most.
#[derive(Clone)]
pub struct OpenRun {
    /// As many bytes as the buffer has memory, the data at its front.
    bytes: Vec<u8>,
    len: usize,
    is_open: bool,
}

/// Of bytes it tells how many there are.
impl core::fmt::Debug for OpenRun {
    fn fmt(&self, f: &mut core::fmt::Formatter<'_>) -> core::fmt::Result {
        use crate::support::Count;
        f.debug_struct("OpenRun")
            .field("bytes", &Count(self.bytes.len()))
            .field("len", &self.len)
            .field("is_open", &self.is_open)
            .finish()
    }
}

impl OpenRun {
    /// No run.
    pub fn none() -> Self {
        OpenRun {
            bytes: Vec::new(),
            len: 0,
            is_open: false,
        }
    }

    /// Begins a run anew with these data. A buffer that is too large for them goes back.
    pub fn begin(&mut self, body: &[u8]) -> Result<(), PacketError> {
        if self.bytes.capacity() > most_memory(body.len()) {
            self.bytes = memory_of(body.len(), &[], body)?;
            self.len = body.len();
        } else {
            self.len = put(&mut self.bytes, 0, body)?;
        }
        self.is_open = true;
        Ok(())
    }

    /// Whether a run is open.
    pub fn is_open(&self) -> bool {
        self.is_open
    }

    /// The data of the run; none where none is open.
    pub fn bytes(&self) -> &[u8] {
        &self.bytes[..self.len]
    }

    /// How many bytes the run holds; none where none is open.
    pub fn len(&self) -> usize {
        self.len
    }

    /// The same, if a run is open.
    #[inline]
    pub fn open_len(&self) -> Option<usize> {
        if self.is_open { Some(self.len) } else { None }
    }

    /// Adds these data to the open run. A copy behind the others, without a call, where there is room.
    #[inline(always)]
    pub(crate) fn extend(&mut self, body: &[u8]) -> Result<(), PacketError> {
        self.len = put(&mut self.bytes, self.len, body)?;
        Ok(())
    }

    /// Closes the run. Memory over `KEPT_MEMORY` bytes goes back.
    #[inline]
    pub fn close(&mut self) {
        if self.bytes.capacity() > KEPT_MEMORY {
            self.give_up();
        } else {
            self.len = 0;
            self.is_open = false;
        }
    }

    /// Closes the run and gives back its buffer.
    pub fn give_up(&mut self) {
        *self = OpenRun::none();
    }

    /// The same run again; none takes no memory.
    pub fn try_clone(&self) -> Result<Self, PacketError> {
        if !self.is_open {
            return Ok(OpenRun::none());
        }
        let mut run = OpenRun::none();
        run.begin(self.bytes())?;
        Ok(run)
    }
}

impl PartialEq for OpenRun {
    fn eq(&self, other: &Self) -> bool {
        self.is_open == other.is_open && self.bytes() == other.bytes()
    }
}

impl Eq for OpenRun {}
