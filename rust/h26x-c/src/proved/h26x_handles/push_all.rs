// Made from crates/h26x_handles/src/push_all.rt by tools/to-rust.

//! Packets for a receiver of access units, many in one call.

use crate::proved::h26x_access_units::Pushed;
use crate::proved::h26x_codes::code::{OK, OUT_OF_MEMORY};
use crate::proved::h26x_handles::access_units::{AccessUnitEndpoint, numbers_of_push};
use crate::proved::h26x_handles::payloads::{RtpPayload, packet_in, put_at};

/// What became of a packet that was pushed: which of the seven it is, and how far it is behind.
#[repr(C)]
#[derive(Clone, Copy)]
pub struct PushTold {
    pub pushed: u32,
    pub behind: u16,
}

/// What is told of a packet.
fn push_told(pushed: Pushed) -> PushTold {
    let (pushed, behind) = numbers_of_push(pushed);
    PushTold { pushed, behind }
}

/// Whether a packet is to be given again.
fn is_full(pushed: Pushed) -> bool {
    match pushed {
        Pushed::Full => true,
        _ => false,
    }
}

impl AccessUnitEndpoint {
    /// Takes packets that came at this tick, one after the other, up to the first that is full or for
    /// which memory lacks; the code of the last call, and how many are not to be given again. What
    /// became of each goes to the caller's memory, as far as there is room.
    pub(crate) fn push_all(
        &mut self,
        now: u32,
        bytes: &[u8],
        payloads: &[RtpPayload],
        told: &mut [PushTold],
    ) -> (u32, usize) {
        let mut taken = 0;
        for it in payloads {
            let Ok(pushed) = self.try_push(now, &packet_in(bytes, it)) else {
                return (OUT_OF_MEMORY, taken);
            };
            put_at(told, taken, push_told(pushed));
            if is_full(pushed) {
                return (OK, taken);
            }
            taken += 1;
        }
        (OK, taken)
    }
}
