// Made from crates/h26x_receiver/src/sequenced.rt by tools/to-rust.

//! A depacketizer that is given packets with their sequence numbers.

use crate::proved::h26x_core::{CodecExtra, PacketError};
use crate::proved::h26x_depacketizer::{OpenText, RunDepacketizer, RunRule, UnitSink, remove_run};
use crate::proved::h26x_receiver::received::Received;

/// How far ahead of the expected number a number is taken as behind it: half of the circle (RFC
/// 1982, 3.2).
const HALF: u16 = 0x8000;

/// How many packets are missing before a number, and whether it is the one expected.
fn place_of(expected: Option<u16>, sequence: u16) -> (u16, bool) {
    match expected {
        Some(expected) => (sequence.wrapping_sub(expected), sequence == expected),
        None => (0, false),
    }
}

/// What is answered for a packet that comes late, before which so many seem to be missing.
#[inline]
fn late_by(missing: u16) -> Option<Received> {
    if missing >= HALF {
        Some(Received::Late(u16::MAX - missing + 1))
    } else {
        None
    }
}

/// Takes a packet where no run is open: the one that was is given up once the packet is taken.
fn take_anew<D: RunDepacketizer, W: UnitSink>(
    depacketizer: &mut D,
    packet: &[u8],
    out: &mut W,
    codec_extra: &mut CodecExtra,
) -> Result<(), PacketError> {
    let mut run = remove_run(depacketizer);
    match depacketizer.take(packet, out, codec_extra) {
        Ok(()) => Ok(()),
        Err(error) => {
            depacketizer.swap_run(&mut run);
            Err(error)
        }
    }
}

/// Takes a packet; where it isn't the one expected, the open run is given up once it is taken.
fn take<D: RunDepacketizer, W: UnitSink>(
    is_next: bool,
    depacketizer: &mut D,
    packet: &[u8],
    out: &mut W,
    codec_extra: &mut CodecExtra,
) -> Result<(), PacketError> {
    if is_next {
        depacketizer.take(packet, out, codec_extra)
    } else {
        take_anew(depacketizer, packet, out, codec_extra)
    }
}

/// Gives up an open run that holds more bytes than this, and tells whether it did.
fn limit_run<D: RunDepacketizer>(depacketizer: &mut D, most: usize) -> bool {
    if depacketizer.run_len() > most {
        depacketizer.give_up_run();
        true
    } else {
        false
    }
}

/// Gives up the run of a text that holds more bytes than this, and tells whether it did.
#[inline]
fn limit_run_in_text(text: &mut OpenText, most: usize) -> bool {
    if text.run_len() > most {
        text.give_up_run();
        true
    } else {
        false
    }
}

/// A depacketizer that is given packets with their sequence numbers of RTP (RFC 3550, 5.1). It gives
/// up the open run wherever a packet is missing, and where it holds more than a limit: so no unit is
/// written of which a part is missing, and no peer makes it hold more.
#[derive(Debug)]
pub struct SequencedDepacketizer<D: RunDepacketizer> {
    /// The depacketizer.
    pub depacketizer: D,
    /// The sequence number that is expected next, if a packet was taken.
    pub expected: Option<u16>,
    /// How many bytes an open run may hold from a packet to the next.
    pub run_limit: usize,
}

impl<D: RunDepacketizer> SequencedDepacketizer<D> {
    /// A receiver that takes any sequence number as the first. A run that is open in `depacketizer`
    /// is given up with the first packet.
    pub fn new(depacketizer: D, run_limit: usize) -> Self {
        SequencedDepacketizer {
            depacketizer,
            expected: None,
            run_limit,
        }
    }

    /// Gives up the open run, and takes any sequence number as the next: for a peer that begins
    /// anew, whose packets are late one after the other.
    pub fn restart(&mut self) {
        self.depacketizer.give_up_run();
        self.expected = None;
    }

    /// Passes over a number that came and bears nothing of the stream, as that of a packet of padding
    /// alone, of forward error correction or of another payload type: it isn't missing. In order only
    /// the number that is expected changes. Where others before it are missing (`Gap`) the open run is
    /// given up; one that is late changes nothing. It takes no memory.
    pub fn skip(&mut self, sequence: u16) -> Received {
        let (_, is_next) = place_of(self.expected, sequence);
        let received = self.skip_in_text(sequence);
        let own = &mut self.depacketizer;
        if received.is_taken() && !is_next {
            own.give_up_run();
        }
        received
    }

    /// As [`Self::skip`], where the open run stands in a text of the caller, who gives it up: the
    /// depacketizer, with its own run, stays as it is.
    pub fn skip_in_text(&mut self, sequence: u16) -> Received {
        let (missing, _) = place_of(self.expected, sequence);
        if let Some(late) = late_by(missing) {
            return late;
        }
        self.expected = Some(sequence.wrapping_add(1));
        Received::taken(missing, false)
    }

    /// Takes a packet with its sequence number. What it completes is written to `out`, a list of bytes
    /// or memory of the caller, behind what stands there, and told in `codec_extra`.
    ///
    /// A packet that is late, comes twice or is refused changes nothing, nor the number that is
    /// expected: it is as if it had not come, and one refused for want of memory can be given again.
    /// The errors are those of the depacketizer.
    pub fn receive<W: UnitSink>(
        &mut self,
        sequence: u16,
        packet: &[u8],
        out: &mut W,
        codec_extra: &mut CodecExtra,
    ) -> Result<Received, PacketError> {
        let (missing, is_next) = place_of(self.expected, sequence);
        if let Some(late) = late_by(missing) {
            return Ok(late);
        }
        let depacketizer = &mut self.depacketizer;
        take(is_next, depacketizer, packet, out, codec_extra)?;
        self.expected = Some(sequence.wrapping_add(1));
        let is_long = limit_run(&mut self.depacketizer, self.run_limit);
        Ok(Received::taken(missing, is_long))
    }

    /// Takes a packet as `receive` does, where the run that is open stands in the text that is written
    /// to, so that the data of its fragments are copied once. The depacketizer's own run is neither
    /// used nor changed. A run that stays open may stand inside, or is put aside.
    #[inline(always)]
    pub fn receive_in_text(
        &mut self,
        sequence: u16,
        packet: &[u8],
        may_be_inside: bool,
        text: &mut OpenText,
        codec_extra: &mut CodecExtra,
    ) -> Result<Received, PacketError> {
        let (missing, is_next) = place_of(self.expected, sequence);
        if let Some(answer) = late_by(missing) {
            return Ok(answer);
        }
        let rule = RunRule {
            is_next,
            may_be_inside,
        };
        self.depacketizer
            .take_in_text(rule, packet, text, codec_extra)?;
        self.expected = Some(sequence.wrapping_add(1));
        let is_long = limit_run_in_text(text, self.run_limit);
        if missing > 0 && !is_long {
            text.give_back();
        }
        Ok(Received::taken(missing, is_long))
    }
}
