//! Datagrams of several RTP packets: those that the system cuts behind the place of the capture, or
//! joined before it (UDP_SEGMENT and UDP_GRO of Linux). All packets have one length but the last,
//! which may be shorter.

use crate::captures::rtp::HEADER;
use std::slice::Chunks;

/// Where the SSRC stands in the header of RTP.
const SSRC: usize = 8;
/// How many places are looked at together, and with the three bytes behind the last of them.
const PLACES: usize = 64;
const BLOCK: usize = PLACES + 3;

/// The packets of a datagram: one, where no second is found.
pub fn packets(datagram: &[u8]) -> Chunks<'_, u8> {
    let len = second(datagram).unwrap_or(datagram.len());
    datagram.chunks(len.max(1))
}

/// Where a second packet begins. It has the payload type and the SSRC of the first, and the next
/// number.
fn second(datagram: &[u8]) -> Option<usize> {
    let first: &[u8; HEADER] = datagram.first_chunk()?;
    let ssrc = *first.last_chunk()?;
    let mut at = HEADER;
    loop {
        at += find(datagram.get(at + SSRC..)?, ssrc)?;
        if follows(first, &datagram[at..]) {
            return Some(at);
        }
        at += 1;
    }
}

/// Whether a header of RTP goes on from another, as far as its number.
fn follows(first: &[u8; HEADER], other: &[u8]) -> bool {
    let number = |header: &[u8]| u16::from_be_bytes([header[2], header[3]]);
    let are_rtp = first[0] >> 6 == 2 && other[0] >> 6 == 2;
    are_rtp && (first[1] ^ other[1]) & 0x7f == 0 && number(other) == number(first).wrapping_add(1)
}

/// Where four bytes stand first.
fn find(bytes: &[u8], wanted: [u8; 4]) -> Option<usize> {
    let mut begin = 0;
    while let Some(block) = bytes[begin..].first_chunk() {
        if has_pair(block, wanted[0], wanted[1]) {
            let at = block.windows(4).position(|it| it == wanted);
            if at.is_some() {
                return at.map(|at| begin + at);
            }
        }
        begin += PLACES;
    }
    let at = bytes[begin..].windows(4).position(|it| it == wanted);
    at.map(|at| begin + at)
}

/// Whether two bytes stand behind one another in a block, as in most they don't. The compiler has
/// many places looked at by one instruction.
fn has_pair(block: &[u8; BLOCK], first: u8, second: u8) -> bool {
    (0..PLACES).fold(false, |has, i| {
        has | ((block[i] == first) & (block[i + 1] == second))
    })
}
