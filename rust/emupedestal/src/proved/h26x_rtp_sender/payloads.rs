// Made from crates/h26x_rtp_sender/src/payloads.rt by tools/to-rust.

//! The payloads of packets that lie in memory, each behind its headroom.

/// The payloads that are left of packets in memory, in order.
pub(crate) struct Payloads<'a> {
    bytes: &'a [u8],
    /// Where those that are left end.
    ends: &'a [usize],
    /// Where the packet before them ends.
    start: usize,
    headroom: usize,
}

/// Of bytes it tells how many there are.
impl<'a> core::fmt::Debug for Payloads<'a> {
    fn fmt(&self, f: &mut core::fmt::Formatter<'_>) -> core::fmt::Result {
        use crate::support::Count;
        f.debug_struct("Payloads")
            .field("bytes", &Count(self.bytes.len()))
            .field("ends", &self.ends)
            .field("start", &self.start)
            .field("headroom", &self.headroom)
            .finish()
    }
}

impl<'a> Payloads<'a> {
    /// The payloads of the packets that end at these places, each behind its headroom.
    pub(crate) fn new(headroom: usize, ends: &'a [usize], bytes: &'a [u8]) -> Self {
        Payloads {
            bytes,
            ends,
            start: 0,
            headroom,
        }
    }
}

/// Where the next payload begins and ends.
fn next_bounds(_bytes: &[u8], ends: &[usize], start: usize, headroom: usize) -> (usize, usize) {
    (start + headroom, ends[0])
}

impl<'a> Iterator for Payloads<'a> {
    type Item = &'a [u8];

    fn next(&mut self) -> Option<&'a [u8]> {
        if self.ends.is_empty() {
            return None;
        }
        let (start, end) = next_bounds(self.bytes, self.ends, self.start, self.headroom);
        let payload = &self.bytes[start..end];
        self.ends = &self.ends[1..];
        self.start = end;
        Some(payload)
    }
}

/// Whether a packet that ends here has its headroom behind the one before.
fn has_headroom(headroom: usize, start: usize, end: usize) -> bool {
    start <= end && headroom <= end - start
}

/// Whether packets may end at these places of memory of so many bytes: each behind a headroom of so
/// many, and the last in it.
#[allow(dead_code, reason = "the C library has it")]
pub fn are_in_memory(headroom: usize, ends: &[usize], size: usize) -> bool {
    let mut start = 0;
    for end in ends.iter() {
        if !has_headroom(headroom, start, *end) {
            return false;
        }
        start = *end;
    }
    start <= size
}
