//! The RTP packets of a capture, in the order in which it has them.

use crate::captures::capture::Capture;
use crate::captures::ip::{Datagram, Part};
use crate::captures::layers::{Flow, Layers};
use crate::captures::rtp::{self, Rtp};
use crate::captures::seen::PassedOver;
use crate::captures::segments;
use crate::errors::Failure;
use crate::output::progress::Progress;
use emupedestal::rtp::RedError;
use emupedestal::rtp_receiver::NoMedia;
use std::fmt;
use std::net::IpAddr;
use std::ops::ControlFlow;

/// Which stream a packet is of.
#[derive(Clone, Copy, PartialEq, Eq, Hash)]
pub struct Stream {
    pub ssrc: u32,
    pub payload_type: u8,
    pub to: (IpAddr, u16),
}

/// Which sender and port packets are of. Those of all its payload types are numbered together (RFC
/// 3550, 5.1), as where packets for error correction stand among others.
pub type Source = (u32, (IpAddr, u16));

impl Stream {
    pub fn source(&self) -> Source {
        (self.ssrc, self.to)
    }
}

impl fmt::Display for Stream {
    fn fmt(&self, f: &mut fmt::Formatter<'_>) -> fmt::Result {
        let Stream {
            ssrc,
            payload_type,
            to: (address, port),
        } = self;
        write!(
            f,
            "SSRC {ssrc:#010x}, payload type {payload_type}, to {address} port {port}"
        )
    }
}

/// A packet with the time at which it was captured, in nanoseconds.
#[derive(Clone, Copy)]
pub struct Captured<'a> {
    pub time: u64,
    /// How much of its datagram the capture has; of one that isn't whole the payload is a front.
    pub part: Part,
    /// The datagram as it came.
    pub datagram: &'a [u8],
    /// Its packet; once RTX and RED are undone, the one that it bears.
    pub rtp: Rtp<'a>,
    /// Whether that was sent again, in a packet of RTX.
    pub is_resent: bool,
    pub bears: Bears,
}

/// What a packet bears of a stream.
#[derive(Clone, Copy, PartialEq, Eq)]
pub enum Bears {
    Media,
    /// Media of which the capture has only a front.
    Front,
    /// Nothing of the codec.
    Nothing(NoMedia),
    /// A redundant payload that is none.
    Broken(RedError),
}

impl Captured<'_> {
    /// Whether it is told of among the packets of the stream: it bears media, or is padding.
    pub fn is_told(&self) -> bool {
        !matches!(
            self.bears,
            Bears::Nothing(NoMedia::Fec | NoMedia::OtherPayloadType(_))
        )
    }
}

/// What is met in a capture.
pub enum Met<'a> {
    /// A packet with its stream and where it comes from.
    Packet(&'a Stream, (IpAddr, u16), &'a Captured<'a>),
    /// The capture comes through a pipe, and what is next has to be waited for.
    Pause,
}

/// Gives what is met in a capture to `take`, until it asks to stop, or no more of a pipe is kept. There
/// is a bar where the work has a name.
pub fn each_packet(
    capture: &mut Capture,
    what: Option<&'static str>,
    mut take: impl FnMut(Met<'_>) -> Flow,
) -> Result<PassedOver, Failure> {
    let mut progress = Progress::new(what, capture.len());
    let mut layers = Layers::default();
    let mut time = 0;
    while !capture.is_front_full() {
        if !capture.is_ready() && take(Met::Pause)?.is_break() {
            break;
        }
        let Some(frame) = capture.next()? else {
            break;
        };
        time = frame.time;
        let mut out = |datagram: &Datagram<'_>| each_of_datagram(datagram, time, &mut take);
        if layers.add(&frame, &mut out)?.is_break() {
            break;
        }
        progress.at(capture.position());
    }
    let mut out = |datagram: &Datagram<'_>| each_of_datagram(datagram, time, &mut take);
    let mut passed = layers.finish(&mut out)?;
    (passed.unread, passed.end) = (capture.unread(), capture.fault());
    Ok(passed)
}

/// Gives the packets of a datagram to `take`.
fn each_of_datagram(
    datagram: &Datagram<'_>,
    time: u64,
    take: &mut impl FnMut(Met<'_>) -> Flow,
) -> Flow {
    let mut packets = segments::packets(datagram.bytes).peekable();
    while let Some(packet) = packets.next() {
        let Some(rtp) = rtp::rtp(packet) else {
            continue;
        };
        let stream = Stream {
            ssrc: rtp.ssrc,
            payload_type: rtp.payload_type,
            to: datagram.to,
        };
        // Where the end of a datagram lacks, it is the last packet's.
        let part = match packets.peek() {
            Some(_) => Part::Whole,
            None => datagram.part,
        };
        let packet = Captured {
            time,
            part,
            datagram: packet,
            rtp,
            is_resent: false,
            bears: Bears::Media,
        };
        if take(Met::Packet(&stream, datagram.from, &packet))?.is_break() {
            return Ok(ControlFlow::Break(()));
        }
    }
    Ok(ControlFlow::Continue(()))
}
