//! A depacketizer of any codec, or a caller's own: what isn't proved of it, since its calls go to one of a codec.

use crate::{Codec, CodecDepacketizer, H265Payload};
#[cfg(doc)]
use crate::{H264Depacketizer, H265Depacketizer};

impl CodecDepacketizer {
    /// Sets whether packets of H.265 and H.266 bear decoding order numbers, as
    /// [`H265Depacketizer::with_donl`] tells. For H.264 and one in a box it changes nothing.
    ///
    /// ```
    /// use emupedestal::{Codec, CodecDepacketizer, CodecExtra, Depacketizer};
    ///
    /// let mut depacketizer = CodecDepacketizer::new(Codec::H266);
    /// depacketizer.with_donl(true);
    /// let (mut out, mut extra) = (Vec::new(), CodecExtra::None);
    /// depacketizer.depacketize(&[0x00, 0x39, 0x00, 0x02, 0xdd], &mut out, &mut extra)?;
    /// assert_eq!(out, [0, 0, 0, 1, 0x00, 0x39, 0xdd]);
    /// # Ok::<(), emupedestal::PacketError>(())
    /// ```
    pub fn with_donl(&mut self, value: bool) {
        match self {
            CodecDepacketizer::H265(it) => it.with_donl(value),
            CodecDepacketizer::H266(it) => it.with_donl(value),
            CodecDepacketizer::H264(_) | CodecDepacketizer::Boxed(_) => {}
        }
    }

    /// Sets whether units are written behind lengths of four bytes: [`H264Depacketizer::is_avc`] and its
    /// like. For one in a box it changes nothing.
    pub fn set_avc(&mut self, value: bool) {
        match self {
            CodecDepacketizer::H264(it) => it.is_avc = value,
            CodecDepacketizer::H265(it) => it.is_avc = value,
            CodecDepacketizer::H266(it) => it.is_avc = value,
            CodecDepacketizer::Boxed(_) => {}
        }
    }

    /// The packet that was accepted last, of H.265, as [`H265Depacketizer::payload`] tells. `None` of the
    /// other codecs and of one in a box.
    pub fn shown(&self) -> Option<&H265Payload> {
        match self {
            CodecDepacketizer::H265(it) => Some(it.payload()),
            _ => None,
        }
    }
}

/// As [`CodecDepacketizer::new`].
impl From<Codec> for CodecDepacketizer {
    fn from(codec: Codec) -> Self {
        CodecDepacketizer::new(codec)
    }
}
