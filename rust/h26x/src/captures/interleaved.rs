//! The packets that stand between the messages of RTSP in a connection of TCP, each behind `$`, a channel
//! and its length in two bytes (RFC 2326, 10.12; RFC 7826, 14).

use crate::captures::headers::Headers;
use crate::captures::layers::Flow;
use crate::captures::pending::Pending;
use std::collections::BTreeMap;
use std::ops::ControlFlow;

const MARK: u8 = b'$';
/// The mark, the channel, the length.
const FRONT: usize = 4;
const LONGEST_PACKET: usize = FRONT + u16::MAX as usize;
/// The longest header and the longest body of a message; where one is longer, it is none of RTSP.
const LONGEST_TEXT: usize = 1 << 16;
/// How far into a connection's first bytes the first line of a message is looked for.
const FIRST_LINE: usize = 2048;

/// One direction of a connection.
#[derive(Default)]
pub struct Interleaved {
    /// What came and is no whole message or packet yet.
    pending: Pending,
    /// How many bytes there have to be before it can be one.
    wanted: usize,
    headers: Headers,
    /// Where it isn't known where the next packet begins: bytes are missing, or are none of RTSP's.
    search: Option<Search>,
}

/// What a connection's next bytes are.
enum Next {
    /// A packet of this length behind its front.
    Packet(usize),
    /// So many bytes that hold none.
    Other(usize),
    /// More have to come, so many in all.
    Wait(usize),
    /// None of RTSP's.
    Lost,
}

/// Whether a connection's bytes are RTSP's: a packet of RTP, or a message.
pub fn begins(bytes: &[u8]) -> bool {
    if bytes.first() == Some(&MARK) {
        return packet_len(bytes).is_some();
    }
    let line = bytes
        .split(|byte| *byte == b'\r')
        .next()
        .unwrap_or_default();
    let line = &line[..line.len().min(FIRST_LINE)];
    line.starts_with(b"RTSP/") || line.windows(6).any(|it| it == b" RTSP/")
}

/// The length of the packet that bytes begin with, where they look as one of RTP or RTCP.
fn packet_len(bytes: &[u8]) -> Option<usize> {
    match bytes {
        [MARK, _, high, low, first, ..] if first >> 6 == 2 => {
            Some(usize::from(u16::from_be_bytes([*high, *low])))
        }
        _ => None,
    }
}

impl Interleaved {
    /// Bytes are missing before those that come next.
    pub fn lose(&mut self) {
        self.pending.pass_to(self.pending.end());
        self.begin_search();
    }

    fn begin_search(&mut self) {
        self.search = Some(Search::from(self.pending.front()));
        self.wanted = 0;
    }

    /// Takes the next bytes, and gives out the packets that are whole with them.
    pub fn add(&mut self, bytes: &[u8], out: &mut dyn FnMut(&[u8]) -> Flow) -> Flow {
        self.pending.push(bytes);
        if self.pending.rest().len() < self.wanted {
            return Ok(ControlFlow::Continue(()));
        }
        loop {
            match self.next() {
                Next::Packet(len) => {
                    let front = self.pending.front();
                    self.pending.pass(FRONT + len);
                    let packet = &self.pending.from(front)[FRONT..FRONT + len];
                    if out(packet)?.is_break() {
                        return Ok(ControlFlow::Break(()));
                    }
                }
                Next::Other(len) => self.pending.pass(len),
                Next::Lost => self.begin_search(),
                Next::Wait(wanted) => {
                    self.wanted = wanted;
                    return Ok(ControlFlow::Continue(()));
                }
            }
        }
    }

    /// What stands at the front.
    fn next(&mut self) -> Next {
        if let Some(search) = &mut self.search {
            let Some(at) = search.next(&self.pending) else {
                // What may be a packet yet begins no earlier.
                let end = self.pending.end();
                self.pending
                    .pass_to(end.saturating_sub(LONGEST_PACKET as u64));
                return Next::Wait(0);
            };
            self.pending.pass_to(at);
            self.search = None;
        }
        match self.pending.rest() {
            [] => Next::Wait(1),
            [MARK, ..] => packet(self.pending.rest()),
            [b'A'..=b'Z', ..] => self.message(),
            [b'\r' | b'\n', ..] => Next::Other(1),
            _ => Next::Lost,
        }
    }

    /// A message: its header up to an empty line, and its body.
    fn message(&mut self) -> Next {
        let there = self.pending.rest().len();
        let end = self.headers.end(&self.pending);
        let len_to = |end: u64| (end - self.pending.front()) as usize;
        let Some(end) = end.filter(|end| len_to(*end) <= LONGEST_TEXT) else {
            return match there > LONGEST_TEXT {
                true => Next::Lost,
                false => Next::Wait(there + 1),
            };
        };
        let header = len_to(end) + 4;
        match self
            .headers
            .body_len(&self.pending, end)
            .saturating_add(header)
        {
            len if len > 2 * LONGEST_TEXT => Next::Lost,
            len if len > there => Next::Wait(len),
            len => Next::Other(len),
        }
    }
}

fn packet(bytes: &[u8]) -> Next {
    let [_, _, high, low, rest @ ..] = bytes else {
        return Next::Wait(FRONT);
    };
    let len = usize::from(u16::from_be_bytes([*high, *low]));
    match rest.len() >= len {
        true => Next::Packet(len),
        false => Next::Wait(FRONT + len),
    }
}

/// Looks for the next packet: one behind which another or a message stands.
struct Search {
    /// Up to where the fronts of packets were looked for.
    looked: u64,
    /// The places behind what may be packets, of which the byte isn't there yet, each with the first packet that ends
    /// there.
    unsure: BTreeMap<u64, u64>,
}

impl Search {
    /// One that finds no packet before a place.
    fn from(place: u64) -> Self {
        Search {
            looked: place,
            unsure: BTreeMap::new(),
        }
    }

    /// Where the first packet begins behind which the byte is there.
    fn next(&mut self, pending: &Pending) -> Option<u64> {
        self.first_sure(pending).or_else(|| self.look(pending))
    }

    /// The first of those that were looked at before.
    fn first_sure(&mut self, pending: &Pending) -> Option<u64> {
        let mut first: Option<u64> = None;
        while let Some(entry) = self.unsure.first_entry() {
            if *entry.key() >= pending.end() {
                break;
            }
            let (behind, at) = entry.remove_entry();
            if follows(pending.from(behind)[0]) && first.is_none_or(|it| at < it) {
                first = Some(at);
            }
        }
        first
    }

    fn look(&mut self, pending: &Pending) -> Option<u64> {
        loop {
            let rest = pending.from(self.looked);
            let Some(mark) = rest.iter().position(|byte| *byte == MARK) else {
                self.looked = pending.end();
                return None;
            };
            let (at, rest) = (self.looked + mark as u64, &rest[mark..]);
            if rest.len() <= FRONT {
                self.looked = at;
                return None;
            }
            self.looked = at + 1;
            let Some(len) = packet_len(rest) else {
                continue;
            };
            match rest.get(FRONT + len) {
                Some(behind) if follows(*behind) => return Some(at),
                Some(_) => {}
                None => {
                    let behind = at + (FRONT + len) as u64;
                    self.unsure.entry(behind).or_insert(at);
                }
            }
        }
    }
}

/// Whether a packet or a message may begin with this byte.
fn follows(byte: u8) -> bool {
    matches!(byte, MARK | b'R')
}
