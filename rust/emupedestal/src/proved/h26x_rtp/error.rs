// Made from crates/h26x_rtp/src/error.rt by tools/to-rust.

//! Why bytes are no RTP packet, and why one isn't written.

/// Why bytes are no RTP packet: the first fault from the left (RFC 3550, 5.1, 5.3.1 and A.1).
#[derive(Debug, Clone, Copy, PartialEq, Eq)]
#[non_exhaustive]
pub enum RtpError {
    /// They are fewer than the 12 bytes that every header has (RFC 3550, 5.1).
    TooShort,

    /// The first two bits say this version, which isn't 2 (RFC 3550, 5.1).
    OtherVersion(u8),

    /// The list of CSRCs passes the end (RFC 3550, 5.1).
    CsrcsPastTheEnd,

    /// The header extension passes the end (RFC 3550, 5.3.1).
    ExtensionPastTheEnd,

    /// The last byte says that 0 bytes are padding, where it is one itself (RFC 3550, 5.1).
    PaddingOfZero,

    /// The padding is longer than what stands behind the header (RFC 3550, 5.1).
    PaddingTooLong,
}

impl core::fmt::Display for RtpError {
    fn fmt(&self, f: &mut core::fmt::Formatter<'_>) -> core::fmt::Result {
        match self {
            RtpError::TooShort => write!(f, "shorter than an RTP header"),
            RtpError::OtherVersion(of_0) => write!(f, "RTP version {of_0}"),
            RtpError::CsrcsPastTheEnd => write!(f, "CSRCs pass the end of the packet"),
            RtpError::ExtensionPastTheEnd => {
                write!(f, "header extension passes the end of the packet")
            }
            RtpError::PaddingOfZero => write!(f, "padding of 0 bytes"),
            RtpError::PaddingTooLong => {
                write!(f, "padding is longer than what is left of the packet")
            }
        }
    }
}

impl core::error::Error for RtpError {}

/// Why a packet or a header isn't written; memory then stays as it was. Parts are looked at in this
/// order.
#[derive(Debug, Clone, Copy, PartialEq, Eq)]
#[non_exhaustive]
pub enum RtpWriteError {
    /// The payload type is above 127 (RFC 3550, 5.1).
    PayloadType,

    /// The CSRCs aren't whole, four bytes each, or they are more than 15 (RFC 3550, 5.1).
    Csrcs,

    /// The header extension isn't of whole words, or has more than 65535 (RFC 3550, 5.3.1).
    Extension,

    /// The last byte of the padding doesn't say how long it is (RFC 3550, 5.1).
    Padding,

    /// So many bytes don't fit.
    NoRoom(usize),
}

impl core::fmt::Display for RtpWriteError {
    fn fmt(&self, f: &mut core::fmt::Formatter<'_>) -> core::fmt::Result {
        match self {
            RtpWriteError::PayloadType => write!(f, "payload type above 127"),
            RtpWriteError::Csrcs => write!(f, "CSRCs that are not whole, or more than 15"),
            RtpWriteError::Extension => write!(
                f,
                "header extension that has no whole words, or more than 65535"
            ),
            RtpWriteError::Padding => write!(f, "padding whose last byte is not its length"),
            RtpWriteError::NoRoom(of_0) => write!(f, "no room for {of_0} bytes"),
        }
    }
}

impl core::error::Error for RtpWriteError {}
