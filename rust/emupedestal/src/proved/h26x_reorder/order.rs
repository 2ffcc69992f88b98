// Made from crates/h26x_reorder/src/order.rt by tools/to-rust.

//! Packets in the order of their sequence numbers, until they may go.

use crate::proved::h26x_core::is_next;
use crate::proved::h26x_reorder::numbered::Numbered;
use crate::proved::h26x_reorder::parted::Parted;
use crate::proved::h26x_reorder::pushed::Pushed;
use crate::support::{AllocError, AllocFailed};

/// How far ahead of the number that is due a number is taken as behind it: half of the circle (RFC
/// 1982, 3.2).
const HALF: u16 = 0x8000;

/// Packets in the order of their numbers, each once, from one that is due on.
#[derive(Debug, Clone)]
pub(crate) struct NumberOrder<T: Numbered> {
    window: u16,
    due: Option<u16>,
    held: Parted<T>,
    /// The number of the last packet, where there is one.
    newest: u16,
}

impl<T: Numbered> NumberOrder<T> {
    /// None, with a window of so many.
    pub(crate) fn new(window: u16) -> Self {
        NumberOrder {
            window,
            due: None,
            held: Parted::new(),
            newest: 0,
        }
    }

    /// Has another window from now on.
    pub(crate) fn set_window(&mut self, window: u16) {
        self.window = window;
    }

    /// How many packets it holds.
    pub(crate) fn len(&self) -> usize {
        self.held.len()
    }

    /// Whether it holds none.
    pub(crate) fn is_empty(&self) -> bool {
        self.held.is_empty()
    }

    /// The number that is due, if a packet came.
    #[inline]
    pub(crate) fn due(&self) -> Option<u16> {
        self.due
    }

    /// Has this number due, where no packet came.
    pub(crate) fn begin_at(&mut self, number: u16) {
        if self.due.is_none() {
            self.due = Some(number);
        }
    }

    /// The first packet.
    #[inline]
    pub(crate) fn first(&self) -> Option<&T> {
        self.held.first()
    }

    /// The number of the packet at a place.
    #[inline]
    pub(crate) fn number_at(&self, place: usize) -> u16 {
        self.held.get(place).sequence()
    }

    /// How far ahead of a number the packet at a place is.
    #[inline]
    fn ahead_at(&self, due: u16, place: usize) -> u16 {
        self.held.get(place).sequence().wrapping_sub(due)
    }

    /// Where a packet with this number stands, or else where it belongs, by halves.
    fn search(&self, due: u16, number: u16) -> Result<usize, usize> {
        let ahead = number.wrapping_sub(due);
        let (mut low, mut high) = (0, self.len());
        while low < high {
            let middle = low + (high - low) / 2;
            let there = self.ahead_at(due, middle);
            if there == ahead {
                return Ok(middle);
            }
            if there < ahead {
                low = middle + 1;
            } else {
                high = middle;
            }
        }
        Err(low)
    }

    /// Where a packet with this number stands, or else where it belongs. One ahead of the last, as
    /// most are, is not searched for.
    #[inline(always)]
    fn place_from(&self, due: u16, number: u16) -> Result<usize, usize> {
        let len = self.len();
        if len == 0 || self.newest.wrapping_sub(due) < number.wrapping_sub(due) {
            return Err(len);
        }
        self.search(due, number)
    }

    /// The number that is due once a packet comes, and the place where that packet is put; or what
    /// is answered for one that isn't held.
    #[inline(always)]
    pub(crate) fn place_of(&self, sequence: u16) -> Result<(u16, usize), Pushed> {
        let first_due = sequence.wrapping_add(1).wrapping_sub(self.window);
        let due = self.due.unwrap_or(first_due);
        let ahead = sequence.wrapping_sub(due);
        if ahead >= HALF {
            return Err(Pushed::Late(u16::MAX - ahead + 1));
        }
        match self.place_from(due, sequence) {
            Ok(_) => Err(Pushed::Twice),
            Err(place) => Ok((due, place)),
        }
    }

    /// Puts a packet at its place. Without memory all stays as it was, and the packet comes back.
    #[inline(always)]
    pub(crate) fn put(&mut self, due: u16, place: usize, packet: T) -> Result<(), AllocFailed<T>> {
        let newest = if place == self.held.len() {
            packet.sequence()
        } else {
            self.newest
        };
        self.held.try_insert(place, packet)?;
        self.newest = newest;
        self.due = Some(due);
        Ok(())
    }

    /// The number of the last packet, or the one that is due where there is none.
    pub(crate) fn newest(&self, due: u16) -> u16 {
        if self.is_empty() { due } else { self.newest }
    }

    /// Whether a number is ahead of all packets, and not late.
    pub(crate) fn is_beyond(&self, number: u16) -> bool {
        match self.due {
            Some(due) => {
                let ahead = number.wrapping_sub(due);
                self.newest(due).wrapping_sub(due) < ahead && ahead < HALF
            }
            None => false,
        }
    }

    /// Whether two numbers, the second ahead of the first, are ahead of all packets, and not late.
    pub(crate) fn are_beyond(&self, first: u16, second: u16) -> bool {
        match self.due {
            Some(due) if self.is_beyond(first) => {
                let ahead = second.wrapping_sub(due);
                first.wrapping_sub(due) < ahead && ahead < HALF
            }
            _ => false,
        }
    }

    /// Puts two packets behind all others. Without memory for both all stays as it was.
    pub(crate) fn put_two(&mut self, first: T, second: T) -> Result<(), AllocError> {
        let number = second.sequence();
        self.held.push_two(first, second)?;
        self.newest = number;
        Ok(())
    }

    /// The first packet, if it may go: the one that is due, or one that the window has passed.
    #[inline]
    pub(crate) fn pop(&mut self) -> Option<T> {
        if self.is_ready() {
            self.pop_first()
        } else {
            None
        }
    }

    /// The first packet, whether it may go or not.
    #[inline]
    pub(crate) fn pop_first(&mut self) -> Option<T> {
        let first = self.held.pop_first()?;
        self.due = Some(first.sequence().wrapping_add(1));
        Some(first)
    }

    /// Whether none is held and this number is due, so that its packet needn't be held.
    #[inline]
    pub(crate) fn goes_straight(&self, number: u16) -> bool {
        self.is_empty() && is_next(self.due, number)
    }

    /// The packet with this number, which needn't be held, has gone.
    #[inline]
    pub(crate) fn pass(&mut self, number: u16) {
        self.due = Some(number.wrapping_add(1));
    }

    /// Whether the first packet may go.
    #[inline]
    pub(crate) fn is_ready(&self) -> bool {
        match self.held.first() {
            Some(first) => self.may_go(first.sequence()),
            None => false,
        }
    }

    /// Whether the first packet, which has this number, may go. No packet is looked at for it.
    #[inline]
    pub(crate) fn may_go(&self, first: u16) -> bool {
        match self.due {
            Some(due) => {
                let ahead = first.wrapping_sub(due);
                let newest = self.newest.wrapping_sub(due);
                first == due || newest - ahead + 1 >= self.window
            }
            None => false,
        }
    }

    /// Drops the packets, and takes any number as the next.
    pub(crate) fn restart(&mut self) {
        self.held.clear();
        self.due = None;
    }
}
