// Made from crates/h26x_reorder/src/buffer.rt by tools/to-rust.

//! A buffer for packets that come before earlier ones.

use crate::proved::h26x_reorder::order::NumberOrder;
use crate::proved::h26x_reorder::packet::RtpPacket;
use crate::proved::h26x_reorder::pushed::Pushed;
use crate::proved::h26x_reorder::spare::SparePayloads;
use crate::support::AllocError;
use alloc::vec::Vec;

/// A packet with memory of its own: one that a buffer holds, or gave out.
#[derive(Clone, PartialEq, Eq, Hash)]
pub struct HeldPacket {
    /// Its sequence number.
    pub sequence: u16,
    /// Its timestamp.
    pub timestamp: u32,
    /// Its marker bit.
    pub marker: bool,
    /// Its payload.
    pub payload: Vec<u8>,
}

/// Of bytes it tells how many there are.
impl core::fmt::Debug for HeldPacket {
    fn fmt(&self, f: &mut core::fmt::Formatter<'_>) -> core::fmt::Result {
        use crate::support::Count;
        f.debug_struct("HeldPacket")
            .field("sequence", &self.sequence)
            .field("timestamp", &self.timestamp)
            .field("marker", &self.marker)
            .field("payload", &Count(self.payload.len()))
            .finish()
    }
}

impl HeldPacket {
    /// A packet in the caller's own memory, which is not copied.
    pub fn new(sequence: u16, timestamp: u32, marker: bool, payload: Vec<u8>) -> Self {
        HeldPacket {
            sequence,
            timestamp,
            marker,
            payload,
        }
    }

    /// The memory of its payload, for another packet.
    pub fn into_payload(self) -> Vec<u8> {
        self.payload
    }

    /// The packet, for a receiver.
    pub fn packet(&self) -> RtpPacket<'_> {
        RtpPacket {
            sequence: self.sequence,
            timestamp: self.timestamp,
            marker: self.marker,
            payload: &self.payload,
        }
    }
}

/// A copy of a packet, in memory that is kept, where there is some.
#[inline]
fn copy_of(spare: &mut SparePayloads, packet: &RtpPacket<'_>) -> Result<HeldPacket, AllocError> {
    Ok(HeldPacket::new(
        packet.sequence,
        packet.timestamp,
        packet.marker,
        spare.copy(packet.payload)?,
    ))
}

/// Why a packet that was given to a buffer by value isn't held.
#[derive(Debug, Clone, Copy, PartialEq, Eq, Hash)]
pub enum NotHeldReason {
    /// Its number is so far behind the one that is due.
    Late(u16),

    /// A packet with its number is held.
    Twice,

    /// There is no memory for one more place. It can be given again.
    OutOfMemory,
}

/// Why a packet isn't held for which this is answered: where it would be held, memory lacks.
fn reason_of(answer: Pushed) -> NotHeldReason {
    match answer {
        Pushed::Held => NotHeldReason::OutOfMemory,
        Pushed::Late(count) => NotHeldReason::Late(count),
        Pushed::Twice => NotHeldReason::Twice,
    }
}

/// A packet that was given to a buffer by value and isn't held, as it was given.
#[derive(Debug, Clone, PartialEq, Eq, Hash)]
pub struct NotHeld {
    /// The packet.
    pub packet: HeldPacket,
    /// Why it isn't held.
    pub reason: NotHeldReason,
}

/// Holds packets that came before earlier ones until those have come, or until a window of packets
/// has passed (a jitter buffer), and gives them out in the order of their sequence numbers of RTP
/// (RFC 3550, 5.1), each once.
///
/// A packet in memory of its own is taken by value, and copied nowhere; its memory comes back with
/// it, for the next datagram:
#[derive(Debug, Clone)]
pub struct ReorderBuffer {
    held: NumberOrder<HeldPacket>,
    spare: SparePayloads,
}

impl ReorderBuffer {
    /// A buffer with a window of so many packets, 1 to 2^14: one that comes after another that was
    /// sent so many or more behind it may be late. It takes any sequence number as the first.
    ///
    /// Of a stream that begins, packets are held until a window of them has come, since those sent
    /// before the first that came may still come.
    ///
    /// # Panics
    ///
    /// Unless `0 < window` and `window <= 16384`.
    pub fn new(window: u16) -> Self {
        assert!(0 < window);
        assert!(window <= 16384);
        ReorderBuffer {
            held: NumberOrder::new(window),
            spare: SparePayloads::none(),
        }
    }

    /// Has a window of so many packets from now on, 1 to 2^14.
    ///
    /// # Panics
    ///
    /// Unless `0 < window` and `window <= 16384`.
    pub fn set_window(&mut self, window: u16) {
        assert!(0 < window);
        assert!(window <= 16384);
        self.held.set_window(window);
    }

    /// How many packets it holds.
    pub fn len(&self) -> usize {
        self.held.len()
    }

    /// Whether it holds none.
    #[inline]
    pub fn is_empty(&self) -> bool {
        self.held.is_empty()
    }

    /// The number that is due: the next one to go where none is missing. None before a packet came.
    #[inline]
    pub fn due(&self) -> Option<u16> {
        self.held.due()
    }

    /// Has this number due, where no packet came: a peer tells the number of its first packet, as in
    /// the RTP-Info of RTSP (RFC 2326, 12.33). Once one came nothing changes.
    pub fn begin_at(&mut self, number: u16) {
        self.held.begin_at(number);
    }

    /// The first of the packets held, which stays: one that is taken elsewhere, where memory may lack,
    /// is looked at here and popped once it was taken.
    #[inline]
    pub fn first(&self) -> Option<&HeldPacket> {
        self.held.first()
    }

    /// The number of the packet at a place of those held, in their order, the first at 0.
    pub(crate) fn number_at(&self, place: usize) -> u16 {
        self.held.number_at(place)
    }

    /// Whether the first of the packets held may go, so that `pop` gives it out.
    #[inline]
    pub fn is_ready(&self) -> bool {
        self.held.is_ready()
    }

    /// Whether the first of the packets held, which has this number, may go.
    #[inline]
    pub(crate) fn may_go(&self, first: u16) -> bool {
        self.held.may_go(first)
    }

    /// Whether a packet with this number needn't be held: none is, and it is the one that is due. A
    /// caller who used it tells so by `pass`.
    #[inline]
    pub fn goes_straight(&self, number: u16) -> bool {
        self.held.goes_straight(number)
    }

    /// The packet with this number, which needn't be held, was used: it is as if it had been pushed and
    /// popped. It takes no memory.
    #[inline]
    pub(crate) fn pass(&mut self, number: u16) {
        self.held.pass(number);
    }

    /// What is answered for a packet with this number: whether it would be held.
    pub fn answer_to(&self, number: u16) -> Pushed {
        match self.held.place_of(number) {
            Ok(_) => Pushed::Held,
            Err(answer) => answer,
        }
    }

    /// Takes a packet, and copies it. Without memory the buffer stays as it was, and the packet can be
    /// given again. One that is late or comes twice takes no memory.
    pub(crate) fn try_push(&mut self, packet: &RtpPacket<'_>) -> Result<Pushed, AllocError> {
        match self.held.place_of(packet.sequence) {
            Ok((due, place)) => {
                let held = copy_of(&mut self.spare, packet)?;
                self.held.put(due, place, held)?;
                Ok(Pushed::Held)
            }
            Err(answer) => Ok(answer),
        }
    }

    /// Takes a packet that has memory of its own, and copies nothing of it. One that isn't held comes
    /// back as it was given, with the reason, and the buffer stays as it was.
    pub fn push_held(&mut self, packet: HeldPacket) -> Result<(), NotHeld> {
        match self.held.place_of(packet.sequence) {
            Ok((due, place)) => match self.held.put(due, place, packet) {
                Ok(()) => Ok(()),
                Err(refused) => Err(NotHeld {
                    packet: refused.value,
                    reason: NotHeldReason::OutOfMemory,
                }),
            },
            Err(answer) => Err(NotHeld {
                packet,
                reason: reason_of(answer),
            }),
        }
    }

    /// The number of the last of the packets held, or the one that is due where none is.
    pub fn newest(&self, due: u16) -> u16 {
        self.held.newest(due)
    }

    /// Whether a number is ahead of all packets that are held, and not late. None is before a packet
    /// came.
    pub fn is_beyond(&self, number: u16) -> bool {
        self.held.is_beyond(number)
    }

    /// Whether two numbers, the second ahead of the first, are ahead of all packets that are held, and
    /// not late.
    pub fn are_beyond(&self, first: u16, second: u16) -> bool {
        self.held.are_beyond(first, second)
    }

    /// Takes two packets that come behind all others, and copies both. Without memory for both the
    /// buffer stays as it was.
    pub(crate) fn push_two(
        &mut self,
        first: &RtpPacket<'_>,
        second: &RtpPacket<'_>,
    ) -> Result<(), AllocError> {
        let first = copy_of(&mut self.spare, first)?;
        let second = copy_of(&mut self.spare, second)?;
        self.held.put_two(first, second)
    }

    /// The first of the packets held, if it may go: the one that is due, or one that the window has
    /// passed.
    pub fn pop(&mut self) -> Option<HeldPacket> {
        self.held.pop()
    }

    /// The first of the packets held, whether it may go or not: at the end of a stream, or where the
    /// caller has waited long enough.
    pub fn pop_first(&mut self) -> Option<HeldPacket> {
        self.held.pop_first()
    }

    /// Takes back a packet that was given out, for its memory: a later one is copied there. That of 64
    /// is kept, each of 2048 bytes at most.
    #[inline]
    pub fn give_back(&mut self, packet: HeldPacket) {
        self.spare.keep(packet.payload);
    }

    /// Drops what it holds, and takes any sequence number as the next: for a peer that begins anew,
    /// whose packets are late one after the other.
    pub fn restart(&mut self) {
        self.held.restart();
    }
}
