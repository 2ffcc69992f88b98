//! The calls of `h26x.h` that are timed without the Rust crate around them.

use crate::format::Format;
use emupedestal::Codec;
use header::{self, Raw, Refusal};

/// The codec's number in `h26x.h`.
fn number(codec: Codec) -> u32 {
    match codec {
        Codec::H264 => 264,
        Codec::H265 => 265,
        Codec::H266 => 266,
    }
}

/// A handle that a call makes.
fn made(format: Format, new: unsafe extern "C" fn(u32, bool, *mut Raw) -> u32) -> Raw {
    let mut made = Raw::room();
    // SAFETY: there is room for a handle.
    let code = unsafe { new(number(format.codec), format.has_donl, &mut made) };
    assert_eq!(code, 0, "a handle");
    made
}

/// A packetizer of the library, which keeps the packets of its last call.
pub struct Packetizer(Raw);

impl Packetizer {
    pub fn new(format: Format) -> Self {
        Packetizer(made(format, header::h26x_packetizer_new))
    }

    /// Makes the packets of a payload; how many they are.
    pub fn packetize(&mut self, mtu: usize, payload: &[u8]) -> usize {
        let (raw, from, len) = (&mut self.0, payload.as_ptr(), payload.len());
        let mut count = 0;
        // SAFETY: the handle is live and ours alone, and the payload is one slice.
        let code = unsafe { header::h26x_packetize(raw, mtu, from, len, &mut count) };
        assert_eq!(code, 0, "packets");
        count
    }

    /// A copy of packet `i`.
    pub fn packet(&mut self, i: usize) -> Vec<u8> {
        // SAFETY: the handle is live and ours alone.
        let mut packet = vec![0; unsafe { header::h26x_packet_len(&self.0, i) }];
        let (to, room) = (packet.as_mut_ptr(), packet.len());
        // SAFETY: the handle is live and ours alone, and `packet` is one slice.
        unsafe { header::h26x_packet_copy(&self.0, i, to, room) };
        packet
    }

    /// Makes the packets of a payload in memory of the caller's, which grows where it has no room.
    pub fn packetize_into(&mut self, mtu: usize, payload: &[u8], memory: &mut Memory) {
        let (bytes, ends) = (&mut memory.bytes, &mut memory.ends);
        let (mut count, mut size) = (0, 0);
        // SAFETY: the handle is live and ours alone; the payload, `bytes` and `ends` are one slice
        // each, apart from one another, and the others are one number each.
        let code = unsafe {
            header::h26x_packetize_into(
                &mut self.0,
                mtu,
                payload.as_ptr(),
                payload.len(),
                0,
                bytes.as_mut_ptr(),
                bytes.len(),
                ends.as_mut_ptr(),
                ends.len(),
                &mut count,
                &mut size,
            )
        };
        if code == header::NO_ROOM {
            bytes.resize(size.max(bytes.len()), 0);
            ends.resize(count.max(ends.len()), 0);
            return self.packetize_into(mtu, payload, memory);
        }
        assert_eq!(code, 0, "packets");
        memory.count = count;
    }
}

/// Memory in which packets are made, one behind the other.
#[derive(Default)]
pub struct Memory {
    bytes: Vec<u8>,
    ends: Vec<usize>,
    count: usize,
}

impl Memory {
    /// The packets that were made last.
    pub fn packets(&self) -> impl Iterator<Item = &[u8]> {
        let ends = &self.ends[..self.count];
        let begins = std::iter::once(&0).chain(ends);
        begins
            .zip(ends)
            .map(|(begin, end)| &self.bytes[*begin..*end])
    }
}

impl Drop for Packetizer {
    fn drop(&mut self) {
        // SAFETY: the handle is live, and freed here alone.
        unsafe { header::h26x_packetizer_free(self.0) }
    }
}

/// A depacketizer of the library.
pub struct Depacketizer(Raw);

impl Depacketizer {
    pub fn new(format: Format) -> Self {
        Depacketizer(made(format, header::h26x_depacketizer_new))
    }

    /// Takes a packet, and has what it completes written to the front of `to`; how many bytes it is.
    pub fn depacketize(&mut self, packet: &[u8], to: &mut [u8], extra: &mut u8) -> usize {
        let (raw, from, len) = (&mut self.0, packet.as_ptr(), packet.len());
        let (at, room) = (to.as_mut_ptr(), to.len());
        let (mut written, mut why) = (0, Refusal::default());
        // SAFETY: the handle is live and ours alone, `packet` and `to` are one slice each, apart from
        // one another, and the others are one number each.
        let code = unsafe {
            header::h26x_depacketize(
                raw,
                false,
                from,
                len,
                at,
                room,
                &mut written,
                extra,
                &mut why,
            )
        };
        assert_eq!(code, 0, "refused: {}, {}", why.first, why.second);
        assert!(written <= room, "there is room");
        written
    }
}

impl Drop for Depacketizer {
    fn drop(&mut self) {
        // SAFETY: the handle is live, and freed here alone.
        unsafe { header::h26x_depacketizer_free(self.0) }
    }
}
