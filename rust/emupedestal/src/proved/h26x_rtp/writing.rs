// Made from crates/h26x_rtp/src/writing.rt by tools/to-rust.

//! RTP packets and headers written to memory of the caller (RFC 3550, 5.1).

use crate::proved::h26x_rtp::datagram::{FIXED_SIZE, RtpDatagram};
use crate::proved::h26x_rtp::error::RtpWriteError;
use crate::proved::h26x_rtp::header::{RtpExtension, RtpHeader};
use crate::proved::h26x_rtp::memory::put;

/// How many bytes 15 CSRCs have (RFC 3550, 5.1).
const LONGEST_CSRCS: usize = 60;

/// How many bytes the longest extension has behind its length (RFC 3550, 5.3.1).
const LONGEST_EXTENSION: usize = 262140;

/// Whether there are bytes.
fn is_there(bytes: &[u8]) -> bool {
    !bytes.is_empty()
}

/// Whether bytes are whole words, at most so many bytes.
fn are_words(bytes: &[u8], longest: usize) -> bool {
    bytes.len() % 4 == 0 && bytes.len() <= longest
}

/// Whether an extension has a place in a header.
fn extension_fits(extension: Option<RtpExtension<'_>>) -> bool {
    match extension {
        Some(extension) => are_words(extension.bytes, LONGEST_EXTENSION),
        None => true,
    }
}

/// Whether the last byte of padding says how long it is.
fn is_padding(padding: &[u8]) -> bool {
    padding.is_empty() || usize::from(padding[padding.len() - 1]) == padding.len()
}

/// What stands before the words of an extension (RFC 3550, 5.3.1).
fn extension_head(extension: RtpExtension<'_>) -> [u8; 4] {
    let [a, b] = extension.profile.to_be_bytes();
    let [c, d] = ((extension.bytes.len() / 4) as u16).to_be_bytes();
    [a, b, c, d]
}

/// Writes an extension at a place; the place behind it (RFC 3550, 5.3.1).
fn put_extension(extension: Option<RtpExtension<'_>>, place: usize, to: &mut [u8]) -> usize {
    match extension {
        Some(extension) => {
            let behind = put(&extension_head(extension), place, to);
            put(extension.bytes, behind, to)
        }
        None => place,
    }
}

impl<'a> RtpHeader<'a> {
    /// Whether every part has a place in a header, or the first that has none.
    pub(crate) fn test(self) -> Result<(), RtpWriteError> {
        if self.payload_type > 127 {
            return Err(RtpWriteError::PayloadType);
        }
        if !are_words(self.csrcs, LONGEST_CSRCS) {
            return Err(RtpWriteError::Csrcs);
        }
        if !extension_fits(self.extension) {
            return Err(RtpWriteError::Extension);
        }
        Ok(())
    }

    /// How many bytes it has.
    pub(crate) fn size(self) -> usize {
        let extension = match self.extension {
            Some(extension) => 4 + extension.bytes.len(),
            None => 0,
        };
        FIXED_SIZE + self.csrcs.len() + extension
    }

    /// The 12 bytes that every header has.
    fn fixed(self, padded: bool) -> [u8; 12] {
        let p = if padded { 32 } else { 0 };
        let x = if self.extension.is_some() { 16 } else { 0 };
        let m = if self.marker { 128 } else { 0 };
        let first = 128 + p + x + (self.csrcs.len() / 4) as u8;
        let [s0, s1] = self.sequence.to_be_bytes();
        let [t0, t1, t2, t3] = self.timestamp.to_be_bytes();
        let [r0, r1, r2, r3] = self.ssrc.to_be_bytes();
        [
            first,
            m + self.payload_type,
            s0,
            s1,
            t0,
            t1,
            t2,
            t3,
            r0,
            r1,
            r2,
            r3,
        ]
    }

    /// Writes it at a place; the place behind it.
    pub(crate) fn put(self, padded: bool, place: usize, to: &mut [u8]) -> usize {
        let behind = put(&self.fixed(padded), place, to);
        let behind = put(self.csrcs, behind, to);
        put_extension(self.extension, behind, to)
    }

    /// Writes it so that it ends at a place, where a payload begins; where it begins, or why it isn't
    /// written (RFC 3550, 5.1). `padded` is P: whether the packet ends in padding.
    pub fn write_before(
        self,
        padded: bool,
        place: usize,
        to: &mut [u8],
    ) -> Result<usize, RtpWriteError> {
        self.test()?;
        let size = self.size();
        if to.len() < place || place < size {
            return Err(RtpWriteError::NoRoom(size));
        }
        self.put(padded, place - size, to);
        Ok(place - size)
    }
}

impl<'a> RtpDatagram<'a> {
    /// Whether every part has a place in a packet, or the first that has none.
    fn test(self) -> Result<(), RtpWriteError> {
        self.header.test()?;
        if !is_padding(self.padding) {
            return Err(RtpWriteError::Padding);
        }
        Ok(())
    }

    /// How many bytes it has; the greatest number where they are more.
    fn size(self) -> usize {
        let size = self.header.size().saturating_add(self.payload.len());
        size.saturating_add(self.padding.len())
    }

    /// Writes it to the front of memory where there is room for it.
    fn put(self, to: &mut [u8]) {
        let behind = self.header.put(is_there(self.padding), 0, to);
        let behind = put(self.payload, behind, to);
        put(self.padding, behind, to);
    }

    /// Writes the packet to the front of memory; how many bytes it has, or why it isn't written
    /// (RFC 3550, 5.1). It is read as the same.
    pub fn write(self, to: &mut [u8]) -> Result<usize, RtpWriteError> {
        self.test()?;
        let size = self.size();
        if to.len() < size {
            return Err(RtpWriteError::NoRoom(size));
        }
        self.put(to);
        Ok(size)
    }
}
