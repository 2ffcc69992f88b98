// Made from crates/h26x_handles/src/settings.rt by tools/to-rust.

//! The settings of a packetizer behind a handle.

use crate::proved::h26x_packetizer::Packing;

/// How a packetizer behind a handle sends.
#[derive(Debug, Clone, Copy, PartialEq, Eq)]
pub struct SendingSettings {
    /// Whether parameter sets that share a packet of H.265 have the header of their own (RFC 7798,
    /// 4.4.2), as the packetizer is told.
    pub lowest_header: bool,
    /// Which units of an access unit share packets, where every unit goes.
    pub packing: Packing,
    /// Whether access unit delimiters and filler data go there too.
    pub delimiters: bool,
}

impl SendingSettings {
    /// Those of a new packetizer: units share packets, and delimiters go.
    pub fn new() -> Self {
        SendingSettings {
            lowest_header: false,
            packing: Packing::Together,
            delimiters: true,
        }
    }
}
