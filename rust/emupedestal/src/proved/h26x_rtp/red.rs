// Made from crates/h26x_rtp/src/red.rt by tools/to-rust.

//! Redundant payloads (RFC 2198), which also bear FEC (RFC 5109, 14.2).

use crate::proved::h26x_rtp::error::RtpWriteError;
use crate::proved::h26x_rtp::memory::write_behind;

/// How many bytes the header of a block before the primary one has (RFC 2198, 3).
const HEADER_SIZE: usize = 4;

/// Why bytes are no redundant payload: the first fault from the left (RFC 2198, 3).
#[derive(Debug, Clone, Copy, PartialEq, Eq)]
#[non_exhaustive]
pub enum RedError {
    /// No header has F clear.
    HeadersPastTheEnd,

    /// The blocks before the primary one are longer than what stands behind the headers.
    BlocksPastTheEnd,
}

impl core::fmt::Display for RedError {
    fn fmt(&self, f: &mut core::fmt::Formatter<'_>) -> core::fmt::Result {
        match self {
            RedError::HeadersPastTheEnd => {
                write!(f, "headers of blocks pass the end of the payload")
            }
            RedError::BlocksPastTheEnd => write!(f, "blocks pass the end of the payload"),
        }
    }
}

impl core::error::Error for RedError {}

/// A block before the primary one (RFC 2198, 3).
#[derive(Clone, Copy, PartialEq, Eq)]
pub struct RedBlock<'a> {
    /// Its payload type: by that of FEC the caller knows that it bears no payload of the stream (RFC
    /// 5109, 14.2).
    pub payload_type: u8,
    /// How much earlier than the packet's its timestamp is, below 16384.
    pub timestamp_offset: u16,
    /// Its bytes, at most 1023.
    pub bytes: &'a [u8],
}

/// Of bytes it tells how many there are.
impl<'a> core::fmt::Debug for RedBlock<'a> {
    fn fmt(&self, f: &mut core::fmt::Formatter<'_>) -> core::fmt::Result {
        use crate::support::Count;
        f.debug_struct("RedBlock")
            .field("payload_type", &self.payload_type)
            .field("timestamp_offset", &self.timestamp_offset)
            .field("bytes", &Count(self.bytes.len()))
            .finish()
    }
}

/// The blocks before the primary one that are left, in their order (RFC 2198, 3).
pub struct RedBlocks<'a> {
    /// Their headers.
    headers: &'a [u8],
    /// What stands behind the headers.
    bytes: &'a [u8],
}

/// Of bytes it tells how many there are.
impl<'a> core::fmt::Debug for RedBlocks<'a> {
    fn fmt(&self, f: &mut core::fmt::Formatter<'_>) -> core::fmt::Result {
        use crate::support::Count;
        f.debug_struct("RedBlocks")
            .field("headers", &Count(self.headers.len()))
            .field("bytes", &Count(self.bytes.len()))
            .finish()
    }
}

/// A redundant payload (RFC 2198, 3).
pub struct RedPayload<'a> {
    /// The blocks before the primary one.
    pub blocks: RedBlocks<'a>,
    /// The payload type of the primary block.
    pub payload_type: u8,
    /// The primary block: the payload that would be sent without redundancy.
    pub primary: &'a [u8],
}

/// Of bytes it tells how many there are.
impl<'a> core::fmt::Debug for RedPayload<'a> {
    fn fmt(&self, f: &mut core::fmt::Formatter<'_>) -> core::fmt::Result {
        use crate::support::Count;
        f.debug_struct("RedPayload")
            .field("blocks", &self.blocks)
            .field("payload_type", &self.payload_type)
            .field("primary", &Count(self.primary.len()))
            .finish()
    }
}

/// How many bytes the headers before that of the primary block have.
fn headers_end(bytes: &[u8]) -> Option<usize> {
    let mut end = 0;
    while end < bytes.len() {
        if bytes[end] < 128 {
            return Some(end);
        }
        end += HEADER_SIZE;
    }
    None
}

/// How many bytes a block has, by the last two bytes of its header.
fn size_of(third: u8, fourth: u8) -> usize {
    usize::from(third & 0x03) * 256 + usize::from(fourth)
}

/// A block's payload type, by the first byte of its header.
fn payload_type_of(first: u8) -> u8 {
    first & 0x7f
}

/// A block's timestamp offset, by the second and third byte of its header.
fn offset_of(second: u8, third: u8) -> u16 {
    u16::from(second) * 64 + u16::from(third >> 2)
}

/// How many bytes the blocks of headers have, where these are at most so many.
fn size_within(headers: &[u8], most: usize) -> Option<usize> {
    let mut left = most;
    let mut rest = headers;
    while rest.len() >= HEADER_SIZE {
        let size = size_of(rest[2], rest[3]);
        if left < size {
            return None;
        }
        left -= size;
        rest = rest.split_at(HEADER_SIZE).1;
    }
    Some(most - left)
}

/// A redundant payload by its headers, and what stands behind that of the primary block.
fn read_parts<'a>(
    headers: &'a [u8],
    payload_type: u8,
    bytes: &'a [u8],
) -> Result<RedPayload<'a>, RedError> {
    let Some(size) = size_within(headers, bytes.len()) else {
        return Err(RedError::BlocksPastTheEnd);
    };
    let (_, primary) = bytes.split_at(size);
    Ok(RedPayload {
        blocks: RedBlocks { headers, bytes },
        payload_type,
        primary,
    })
}

/// A redundant payload, or why the bytes are none.
fn read_red(bytes: &[u8]) -> Result<RedPayload<'_>, RedError> {
    match headers_end(bytes) {
        Some(end) => {
            let (headers, rest) = bytes.split_at(end);
            let (_, behind) = rest.split_at(1);
            read_parts(headers, bytes[end], behind)
        }
        None => Err(RedError::HeadersPastTheEnd),
    }
}

impl<'a> RedPayload<'a> {
    /// Reads a redundant payload, or says why the bytes are none (RFC 2198, 3).
    pub fn read(bytes: &'a [u8]) -> Result<RedPayload<'a>, RedError> {
        read_red(bytes)
    }
}

/// Writes a redundant payload of a primary block alone to the front of memory; how many bytes it has
/// (RFC 2198, 3).
///
/// # Panics
///
/// Unless `payload_type < 128`.
pub fn write_red(payload_type: u8, payload: &[u8], to: &mut [u8]) -> Result<usize, RtpWriteError> {
    assert!(payload_type < 128);
    write_behind(&[payload_type], payload, to)
}

impl<'a> RedBlock<'a> {
    /// Whether its payload type is one of these, as those of FEC that the session has.
    pub fn is_of(&self, payload_types: &[u8]) -> bool {
        payload_types.contains(&self.payload_type)
    }
}

impl<'a> RedBlocks<'a> {
    /// How many are left.
    pub fn left(&self) -> usize {
        self.headers.len() / HEADER_SIZE
    }
}

/// The next block of headers, and what is left of both.
fn first_block<'a>(headers: &[u8], bytes: &'a [u8]) -> (RedBlock<'a>, &'a [u8]) {
    let size = size_of(headers[2], headers[3]);
    let (block, rest) = bytes.split_at(size);
    let block = RedBlock {
        payload_type: payload_type_of(headers[0]),
        timestamp_offset: offset_of(headers[1], headers[2]),
        bytes: block,
    };
    (block, rest)
}

impl<'a> Iterator for RedBlocks<'a> {
    type Item = RedBlock<'a>;

    fn next(&mut self) -> Option<RedBlock<'a>> {
        if self.headers.len() < HEADER_SIZE {
            return None;
        }
        let (block, bytes) = first_block(self.headers, self.bytes);
        let (_, headers) = self.headers.split_at(HEADER_SIZE);
        *self = RedBlocks { headers, bytes };
        Some(block)
    }
}
