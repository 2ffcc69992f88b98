// Made from crates/h26x_access_units/src/passed.rt by tools/to-rust.

//! Which of the last numbers were taken.

/// How many numbers are known behind the one that is due.
const KNOWN: u16 = 1024;

/// Which of the last 1024 numbers that a stream passed were taken, so that one of them that comes again
/// is told from one that comes late.
#[derive(Debug)]
pub(crate) struct PassedNumbers {
    /// By a number's rest modulo 1024, its quotient and one, of the one that was taken last.
    pub taken: [u8; 1024],
    /// How many numbers behind the one that is due are known.
    pub count: u16,
}

impl PassedNumbers {
    /// Before any packet was taken.
    pub(crate) fn none() -> Self {
        PassedNumbers {
            taken: [0; 1024],
            count: 0,
        }
    }

    /// Whether a number was passed, and is among the last 1024.
    #[inline]
    pub(crate) fn has_passed(&self, due: Option<u16>, number: u16) -> bool {
        match due {
            Some(due) => {
                let behind = due.wrapping_sub(number);
                0 < behind && behind <= self.count
            }
            None => false,
        }
    }

    /// Whether it was taken.
    #[inline]
    pub(crate) fn has_taken(&self, due: Option<u16>, number: u16) -> bool {
        self.has_passed(due, number)
            && self.taken[usize::from(number % KNOWN)] == (number / KNOWN) as u8 + 1
    }

    /// Notes a number that is taken, where another is due.
    #[inline]
    pub(crate) fn take(&mut self, due: u16, number: u16) {
        self.taken[usize::from(number % KNOWN)] = (number / KNOWN) as u8 + 1;
        let more = number.wrapping_sub(due).saturating_add(1);
        self.count = KNOWN.min(self.count.saturating_add(more));
    }
}
