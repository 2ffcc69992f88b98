// Made from crates/h26x_rtp_receiver/src/payload_types.rt by tools/to-rust.

//! The payload types of a session that belong to one stream.

/// The payload types of one stream, as a session description tells them; each is below 128.
#[derive(Debug, Clone, Copy, PartialEq, Eq)]
pub struct RtpPayloadTypes {
    /// That of the codec.
    pub media: u8,
    /// That of RTX whose `apt` is `media` (RFC 4588, 8.1).
    pub rtx: Option<u8>,
    /// That of RED (RFC 2198).
    pub red: Option<u8>,
    /// That of RTX whose `apt` is `red`, as Chromium has it; without `red` it is none.
    pub rtx_of_red: Option<u8>,
    /// That of FEC, by itself or in RED (RFC 5109, 14).
    pub fec: Option<u8>,
}

/// Whether a payload type is this one.
#[inline(always)]
fn is_type(payload_type: Option<u8>, it: u8) -> bool {
    match payload_type {
        Some(payload_type) => payload_type == it,
        None => false,
    }
}

impl RtpPayloadTypes {
    /// The payload type that packets of this one send again, if it is one of RTX.
    pub(crate) fn resent_type(self, payload_type: u8) -> Option<u8> {
        if is_type(self.rtx, payload_type) {
            return Some(self.media);
        }
        if is_type(self.rtx_of_red, payload_type) {
            return self.red;
        }
        None
    }

    /// That whose packets bear the codec's payload by themselves.
    fn plain_type(self) -> Option<u8> {
        if self.resent_type(self.media).is_some() || self.is_red(self.media) {
            return None;
        }
        if self.media >= 64 && self.media <= 95 {
            return None;
        }
        Some(self.media)
    }

    /// That as a number which is that of no payload type where there is none.
    fn plain_number(self) -> u16 {
        match self.plain_type() {
            Some(payload_type) => u16::from(payload_type),
            None => 256,
        }
    }

    /// Whether it is RED.
    pub(crate) fn is_red(self, payload_type: u8) -> bool {
        is_type(self.red, payload_type)
    }

    /// Whether it is FEC.
    pub(crate) fn is_fec(self, payload_type: u8) -> bool {
        is_type(self.fec, payload_type)
    }

    /// Whether a stream may begin with a packet of it.
    pub(crate) fn begins(self, payload_type: u8) -> bool {
        payload_type == self.media || self.is_red(payload_type)
    }
}

/// The payload types of a stream, and which of them is plain, worked out once.
#[derive(Debug)]
pub(crate) struct StreamTypes {
    /// All of them.
    all: RtpPayloadTypes,
    /// The number of that whose packets bear the codec's payload by themselves; 256 where none do.
    plain: u16,
}

impl StreamTypes {
    /// Those of a stream.
    pub(crate) fn new(all: RtpPayloadTypes) -> Self {
        StreamTypes {
            all,
            plain: all.plain_number(),
        }
    }

    /// All of them.
    pub(crate) fn all(&self) -> RtpPayloadTypes {
        self.all
    }

    /// Whether packets of this one bear the codec's payload by themselves.
    #[inline(always)]
    pub(crate) fn is_plain(&self, payload_type: u8) -> bool {
        self.plain == u16::from(payload_type)
    }

    /// Whether bytes may be a packet of that one: they are no RTCP then, which would have one of 64 to
    /// 95 there (RFC 5761, 4).
    #[inline(always)]
    pub(crate) fn may_be_plain(&self, bytes: &[u8]) -> bool {
        bytes.len() > 12 && self.is_plain(bytes[1] & 0x7f)
    }
}
