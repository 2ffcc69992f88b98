//! Connections of TCP (RFC 9293, 3.1 and 3.4) in which RTSP has packets of RTP: their bytes in order.
//!
//! Of a connection that isn't RTSP's nothing is kept. What comes ahead of missing bytes waits for them;
//! where too much waits, they are given up.

use crate::captures::interleaved::{Interleaved, begins};
use crate::captures::ip::{Datagram, Part, Payload};
use crate::captures::layers::Flow;
use crate::captures::link::half;
use crate::errors::Failure;
use std::collections::VecDeque;
use std::net::IpAddr;
use std::ops::ControlFlow;

/// How many directions of connections are followed; of more, the one that was silent longest is left.
const MOST: usize = 64;
/// How many segments of a direction wait for missing bytes, and how many bytes.
const MOST_WAITING: usize = 256;
const MOST_BYTES: usize = 1 << 20;
const SYN: u8 = 0x02;

type End = (IpAddr, u16);

struct Segment<'a> {
    ends: (End, End),
    sequence: u32,
    is_first: bool,
    bytes: &'a [u8],
}

#[derive(Default)]
pub struct Connections {
    /// The one that was heard of last stands last.
    open: VecDeque<Connection>,
}

/// One direction.
struct Connection {
    ends: (End, End),
    /// The number of the byte that is next.
    next: u32,
    /// Segments behind it, by their numbers.
    waiting: Vec<(u32, Vec<u8>)>,
    stream: Interleaved,
}

fn segment<'a>(payload: &Payload<'a>) -> Option<Segment<'a>> {
    let bytes = payload.bytes;
    let fixed: &[u8; 20] = bytes.first_chunk()?;
    let header = usize::from(fixed[12] >> 4) * 4;
    if header < fixed.len() {
        return None;
    }
    Some(Segment {
        ends: (
            (payload.from, half(bytes, 0)?),
            (payload.to, half(bytes, 2)?),
        ),
        sequence: u32::from_be_bytes(*fixed[4..].first_chunk()?),
        is_first: fixed[13] & SYN != 0,
        bytes: bytes.get(header..)?,
    })
}

impl Connections {
    /// Takes what an IP packet has of a connection, and gives out the packets that are whole with it.
    /// Answers whether it is one of RTSP.
    pub fn add(
        &mut self,
        payload: &Payload<'_>,
        out: &mut dyn FnMut(&Datagram<'_>) -> Flow,
    ) -> Result<(bool, ControlFlow<()>), Failure> {
        let Some(mut segment) = segment(payload) else {
            return Ok((false, ControlFlow::Continue(())));
        };
        let Some(mut connection) = self.connection(&segment) else {
            return Ok((false, ControlFlow::Continue(())));
        };
        // Of one that was cut all bytes are missing.
        if !payload.is_whole {
            segment.bytes = &[];
        }
        let flow = match segment.is_first {
            true => {
                connection = Connection::new(segment.ends, segment.sequence.wrapping_add(1));
                ControlFlow::Continue(())
            }
            false => connection.add(&segment, out)?,
        };
        self.open.push_back(connection);
        Ok((true, flow))
    }

    /// Takes the connection of a segment out of the list; a new one where the segment begins as RTSP
    /// does.
    fn connection(&mut self, segment: &Segment<'_>) -> Option<Connection> {
        let at = self.open.iter().position(|it| it.ends == segment.ends);
        if let Some(at) = at {
            return self.open.remove(at);
        }
        if !begins(segment.bytes) {
            return None;
        }
        if self.open.len() == MOST {
            self.open.pop_front();
        }
        Some(Connection::new(segment.ends, segment.sequence))
    }

    /// Gives out what waits for bytes that never came.
    pub fn finish(&mut self, out: &mut dyn FnMut(&Datagram<'_>) -> Flow) -> Flow {
        for mut connection in std::mem::take(&mut self.open) {
            while !connection.waiting.is_empty() {
                if connection.pass_gap(out)?.is_break() {
                    return Ok(ControlFlow::Break(()));
                }
            }
        }
        Ok(ControlFlow::Continue(()))
    }
}

impl Connection {
    fn new(ends: (End, End), next: u32) -> Self {
        Connection {
            ends,
            next,
            waiting: Vec::new(),
            stream: Interleaved::default(),
        }
    }

    fn add(&mut self, segment: &Segment<'_>, out: &mut dyn FnMut(&Datagram<'_>) -> Flow) -> Flow {
        let is_ahead = (segment.sequence.wrapping_sub(self.next) as i32) > 0;
        if !is_ahead {
            return match self.give(segment.sequence, segment.bytes, out)? {
                ControlFlow::Continue(()) => self.give_next(out),
                stop => Ok(stop),
            };
        }
        let bytes: usize = self.waiting.iter().map(|it| it.1.len()).sum();
        self.waiting
            .push((segment.sequence, segment.bytes.to_vec()));
        if self.waiting.len() > MOST_WAITING || bytes > MOST_BYTES {
            return self.pass_gap(out);
        }
        Ok(ControlFlow::Continue(()))
    }

    /// Gives out what is new of bytes that begin at the next number or before it.
    fn give(
        &mut self,
        sequence: u32,
        bytes: &[u8],
        out: &mut dyn FnMut(&Datagram<'_>) -> Flow,
    ) -> Flow {
        let known = self.next.wrapping_sub(sequence) as usize;
        let Some(bytes) = bytes.get(known..) else {
            return Ok(ControlFlow::Continue(()));
        };
        self.next = self.next.wrapping_add(bytes.len() as u32);
        let (from, to) = self.ends;
        self.stream.add(bytes, &mut |packet| {
            out(&Datagram {
                from,
                to,
                part: Part::Whole,
                bytes: packet,
            })
        })
    }

    /// Where a segment stands that waits for nothing more.
    fn due(&self) -> Option<usize> {
        let is_due = |it: &(u32, Vec<u8>)| (it.0.wrapping_sub(self.next) as i32) <= 0;
        self.waiting.iter().position(is_due)
    }

    /// Gives out what waits no longer.
    fn give_next(&mut self, out: &mut dyn FnMut(&Datagram<'_>) -> Flow) -> Flow {
        while let Some(at) = self.due() {
            let (sequence, bytes) = self.waiting.swap_remove(at);
            if self.give(sequence, &bytes, out)?.is_break() {
                return Ok(ControlFlow::Break(()));
            }
        }
        Ok(ControlFlow::Continue(()))
    }

    /// Gives up the bytes that are missing.
    fn pass_gap(&mut self, out: &mut dyn FnMut(&Datagram<'_>) -> Flow) -> Flow {
        let next = self.next;
        let first = self.waiting.iter().map(|it| it.0.wrapping_sub(next)).min();
        self.next = next.wrapping_add(first.unwrap_or(0));
        self.stream.lose();
        self.give_next(out)
    }
}
