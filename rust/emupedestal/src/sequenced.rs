//! Packets with their sequence numbers.

use crate::proved::h26x_codec::AnyDepacketizer;
use crate::proved::h26x_depacketizer::RunDepacketizer;
use crate::proved::h26x_receiver::{self, SequencedDepacketizer as Sequenced};
use crate::{Codec, CodecExtra, H265Payload, PacketError, Received};
use alloc::vec::Vec;

/// A depacketizer of any codec that is given packets with their sequence numbers (RFC 3550, 5.1).
///
/// It writes no unit of which a packet is missing, whatever a network loses, delays or brings twice,
/// as long as gaps and delays are of fewer than 32768 packets; the units whose packets came it writes.
///
/// Packets must come in their order: one behind a later one is late. Where a network changes their
/// order, put a buffer before this (a jitter buffer).
///
/// # What it holds
///
/// - The data of an open unit: up to `run_limit` bytes from a packet to the next, and while a packet
///   is taken that packet's too, so that no peer makes it hold more.
/// - Of H.265 what is [`shown`](Self::shown).
///
/// All of it is freed with the depacketizer.
///
/// `clone` copies the settings, the open unit and the number that is expected. It panics where memory
/// lacks.
///
/// ```
/// use emupedestal::{Codec, CodecExtra, Received, SequencedDepacketizer};
///
/// let mut receiver = SequencedDepacketizer::new(Codec::H264, 4_000_000);
/// let (mut out, mut extra) = (Vec::new(), CodecExtra::None);
/// let packets: [(u16, &[u8]); 4] = [
///     (65535, &[0x7c, 0x85, 1]), // the first fragment of a unit
///     (1, &[0x7c, 0x45, 3]),     // its last: the one between them is missing
///     (2, &[0x61, 9]),           // another unit
///     (2, &[0x61, 9]),           // the same again
/// ];
/// let mut answers = Vec::new();
/// for (sequence, packet) in packets {
///     answers.push(receiver.receive(sequence, packet, &mut out, &mut extra)?);
/// }
/// let wanted = [Received::InOrder, Received::Gap(1), Received::InOrder, Received::Late(1)];
/// assert_eq!(answers, wanted);
/// assert_eq!(out, [0, 0, 0, 1, 0x61, 9]);
/// # Ok::<(), emupedestal::PacketError>(())
/// ```
#[derive(Debug)]
pub struct SequencedDepacketizer {
    inner: Sequenced<AnyDepacketizer>,
}

/// A receiver over the copy of one's depacketizer, which expects what that one does. It panics where memory
/// lacked.
pub(crate) fn copied<D: RunDepacketizer>(
    it: &Sequenced<D>,
    depacketizer: Result<D, PacketError>,
) -> Sequenced<D> {
    let mut copy = Sequenced::new(depacketizer.expect("memory"), it.run_limit);
    copy.expected = it.expected;
    copy
}

/// Whether two expect the same, and have the same limit.
pub(crate) fn expect_the_same<D: RunDepacketizer>(
    one: &Sequenced<D>,
    other: &Sequenced<D>,
) -> bool {
    (one.expected, one.run_limit) == (other.expected, other.run_limit)
}

impl Clone for SequencedDepacketizer {
    fn clone(&self) -> Self {
        SequencedDepacketizer {
            inner: copied(&self.inner, self.inner.depacketizer.try_clone()),
        }
    }
}

/// Of H.265 what is shown counts too.
impl PartialEq for SequencedDepacketizer {
    fn eq(&self, other: &Self) -> bool {
        self.inner.depacketizer.is_same(&other.inner.depacketizer)
            && expect_the_same(&self.inner, &other.inner)
    }
}

impl Eq for SequencedDepacketizer {}

impl SequencedDepacketizer {
    /// A depacketizer with no unit open, which takes any sequence number as the first. It reads no
    /// decoding order numbers, and writes start codes.
    ///
    /// `run_limit` is how many bytes of data, without the header, an open unit may hold from a packet
    /// to the next. Choose it above the units that are expected: a unit in fragments whose data before
    /// the last fragment is longer is left out whole ([`Received::TooLong`]).
    pub fn new(codec: Codec, run_limit: usize) -> Self {
        SequencedDepacketizer {
            inner: Sequenced::new(AnyDepacketizer::new(codec), run_limit),
        }
    }

    /// Its codec.
    pub fn codec(&self) -> Codec {
        self.inner.depacketizer.codec()
    }

    /// How many bytes of data an open unit may hold from a packet to the next.
    pub fn run_limit(&self) -> usize {
        self.inner.run_limit
    }

    /// Sets whether packets bear decoding order numbers (DONL and DOND): where `sprop-max-don-diff` is
    /// over 0 (RFC 7798, 7.1; RFC 9328, 7.2). An open unit stays open. Packets of H.264 bear none, and
    /// of that codec it changes nothing.
    ///
    /// Nothing in a packet tells it. Set otherwise than the sender's, numbers are read as bytes of
    /// units, or bytes of units as numbers.
    pub fn with_donl(&mut self, value: bool) {
        self.inner.depacketizer.with_donl(value);
    }

    /// Whether units are written behind lengths of four bytes, as MP4 files have them (ISO/IEC
    /// 14496-15: `avc1`, `hvc1`, `vvc1`), and not behind start codes.
    pub fn is_avc(&self) -> bool {
        self.inner.depacketizer.is_avc()
    }

    /// Sets whether units are written behind lengths of four bytes. A unit has the form that is set
    /// when the packet comes that completes it.
    pub fn set_avc(&mut self, value: bool) {
        self.inner.depacketizer.set_avc(value);
    }

    /// Takes a packet with its sequence number, and appends the units that it completes to `out`, each
    /// with four bytes before it. Begin `codec_extra` with `None` for each access unit.
    ///
    /// # Errors
    ///
    /// Those of [`Depacketizer::depacketize`]. A packet that is late, comes twice or is refused changes
    /// nothing: not `out`, not `codec_extra`, not the open unit, not the number that is expected. Pass
    /// it over and go on: a refused packet is as if it had not come, and the next one is behind a gap.
    /// One refused for want of memory can be given again.
    ///
    /// # Where a peer's numbers jump
    ///
    /// A number 32768 or more ahead of the one expected is late. So all packets of such a peer are
    /// late, one after the other: call [`restart`](Self::restart).
    ///
    /// [`Depacketizer::depacketize`]: crate::Depacketizer::depacketize
    pub fn receive(
        &mut self,
        sequence: u16,
        packet: &[u8],
        out: &mut Vec<u8>,
        codec_extra: &mut CodecExtra,
    ) -> Result<Received, PacketError> {
        self.inner.receive(sequence, packet, out, codec_extra)
    }

    /// Takes packets with their sequence numbers, one after the other as by [`receive`](Self::receive), and answers
    /// what became of each. One that is refused is passed over.
    ///
    /// # Errors
    ///
    /// `OutOfMemory` alone, where there is none for the answers: nothing was taken then.
    ///
    /// ```
    /// use emupedestal::{Codec, CodecExtra, PacketError, Received, SequencedDepacketizer};
    ///
    /// let mut receiver = SequencedDepacketizer::new(Codec::H264, 4_000_000);
    /// let (mut out, mut extra) = (Vec::new(), CodecExtra::None);
    /// let packets: [(u16, &[u8]); 3] = [(7, &[0x61, 9]), (9, &[0x7c]), (9, &[0x61, 8])];
    /// let answers = receiver.receive_all(&packets, &mut out, &mut extra)?;
    /// let wanted = [Ok(Received::InOrder), Err(PacketError::ErrShortPacket), Ok(Received::Gap(1))];
    /// assert_eq!(answers, wanted);
    /// assert_eq!(out, [0, 0, 0, 1, 0x61, 9, 0, 0, 0, 1, 0x61, 8]);
    /// # Ok::<(), PacketError>(())
    /// ```
    pub fn receive_all(
        &mut self,
        packets: &[(u16, impl AsRef<[u8]>)],
        out: &mut Vec<u8>,
        codec_extra: &mut CodecExtra,
    ) -> Result<Vec<Result<Received, PacketError>>, PacketError> {
        h26x_receiver::receive_all(&mut self.inner, packets, out, codec_extra)
    }

    /// Passes over a number that came and bears nothing of the stream, as that of padding alone, of
    /// forward error correction or of another payload type: so it isn't missing. [`Received::InOrder`]
    /// leaves the open unit; behind a [`Received::Gap`] it is given up; [`Received::Late`] changes
    /// nothing. It takes no memory.
    pub fn skip(&mut self, sequence: u16) -> Received {
        self.inner.skip(sequence)
    }

    /// Gives up the open unit, frees its buffer, and takes any sequence number as the next: for a peer
    /// that begins anew, of which many packets in a row are [`Received::Late`]. It takes no memory.
    pub fn restart(&mut self) {
        self.inner.restart();
    }

    /// How many bytes of data the open unit holds, up to the limit; 0 where none is open.
    pub fn run_len(&self) -> usize {
        self.inner.depacketizer.run_len()
    }

    /// The packet that was taken last, of H.265 (RFC 7798, 4.4); before any, a single NAL unit packet
    /// with a header of 0 and no bytes. `None` of the other codecs.
    ///
    /// What it costs stands at [`H265Depacketizer::payload`](crate::H265Depacketizer::payload).
    pub fn shown(&self) -> Option<&H265Payload> {
        self.inner.depacketizer.shown()
    }
}
