// Made from crates/h26x_packetizer/src/update.rt by tools/to-rust.

//! What a call changes of a packetizer.

use alloc::vec::Vec;
/// What a call changes of a packetizer once it is carried out: the sets that wait, and the next
/// number.
pub struct Update {
    /// Whether the sets from before were sent.
    pub are_sent: bool,
    /// The sets since.
    pub vps: Option<Vec<u8>>,
    pub sps: Option<Vec<u8>>,
    pub pps: Option<Vec<u8>>,
    pub next_don: u16,
}

impl Update {
    /// The next number alone changes.
    pub fn number(next_don: u16) -> Update {
        Update {
            are_sent: false,
            vps: None,
            sps: None,
            pps: None,
            next_don,
        }
    }
}
