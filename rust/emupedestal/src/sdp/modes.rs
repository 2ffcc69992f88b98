//! Values that are names.

/// How units are put into packets of H.264 (RFC 6184, section 6): `packetization-mode`.
#[derive(Debug, Clone, Copy, PartialEq, Eq, PartialOrd, Ord, Hash, Default)]
pub enum PacketizationMode {
    /// 0: each packet is a unit. It is what stands where a format says nothing.
    #[default]
    SingleNalUnit = 0,
    /// 1: units, STAP-A and FU-A, in decoding order: what this crate sends.
    NonInterleaved = 1,
    /// 2: STAP-B, MTAP, FU-A and FU-B, in another order, which this crate doesn't receive.
    Interleaved = 2,
}

/// In how many RTP streams and sessions H.265 is sent (RFC 7798, section 7.1): `tx-mode`.
#[derive(Debug, Clone, Copy, PartialEq, Eq, Hash, Default)]
pub enum TxMode {
    /// `SRST`: one stream. It is what stands where a format says nothing.
    #[default]
    SingleStream,
    /// `MRST`: several streams in one session.
    MultipleStreams,
    /// `MRMT`: several streams in several sessions.
    MultipleSessions,
}
