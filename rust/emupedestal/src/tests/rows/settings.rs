//! How an endpoint is made.

use super::plain::Plain;
use super::row::{Words, bytes_of, word};
use crate::proved::h26x_codec::{AnyDepacketizer, AnyPacketizer};
use crate::{Codec, CodecDepacketizer, CodecPacketizer};

/// How an endpoint is made: one of a codec, or, where there is none, the plain one in a box.
#[derive(Clone, Copy)]
pub(super) struct Settings {
    pub(super) codec: Option<Codec>,
    pub(super) has_donl: bool,
    pub(super) is_avc: bool,
}

/// The codec of this name, if it is none in a box.
pub(super) fn codec_of(name: &str) -> Option<Codec> {
    match name {
        "h264" => Some(Codec::H264),
        "h265" => Some(Codec::H265),
        "h266" => Some(Codec::H266),
        "boxed" => None,
        _ => panic!("no codec {name}"),
    }
}

impl Settings {
    /// Those that the next words name, and the further words.
    pub(super) fn with_words<'a>(words: &mut Words<'a>) -> (Settings, Vec<&'a str>) {
        let mut settings = Settings {
            codec: codec_of(word(words)),
            has_donl: false,
            is_avc: false,
        };
        let mut others = Vec::new();
        for word in words {
            match word {
                "numbers" if others.is_empty() => settings.has_donl = true,
                "avc" if others.is_empty() => settings.is_avc = true,
                word => others.push(word),
            }
        }
        (settings, others)
    }

    /// Those that the words name, which name nothing else.
    pub(super) fn read(words: &mut Words<'_>) -> Settings {
        let (settings, others) = Settings::with_words(words);
        assert!(others.is_empty(), "{others:?}");
        settings
    }

    /// Those that the next words name, and the bytes of the further words.
    pub(super) fn with_packets(words: &mut Words<'_>) -> (Settings, Vec<Vec<u8>>) {
        let (settings, others) = Settings::with_words(words);
        (settings, others.into_iter().map(bytes_of).collect())
    }

    /// A packetizer of a codec with these.
    pub(super) fn any_packetizer(self) -> AnyPacketizer {
        AnyPacketizer::new(self.codec.expect("a codec"), self.has_donl)
    }

    /// A depacketizer of a codec with these.
    pub(super) fn any_depacketizer(self) -> AnyDepacketizer {
        let mut it = AnyDepacketizer::new(self.codec.expect("a codec"));
        it.with_donl(self.has_donl);
        it.set_avc(self.is_avc);
        it
    }

    /// A packetizer with these that is chosen while the program runs.
    pub(super) fn packetizer(self) -> CodecPacketizer {
        let Some(codec) = self.codec else {
            return CodecPacketizer::Boxed(Box::new(Plain));
        };
        let mut it = CodecPacketizer::new(codec);
        it.with_donl(self.has_donl);
        it
    }

    /// A depacketizer with these that is chosen while the program runs.
    pub(super) fn depacketizer(self) -> CodecDepacketizer {
        let Some(codec) = self.codec else {
            return CodecDepacketizer::Boxed(Box::new(Plain));
        };
        let mut it = CodecDepacketizer::new(codec);
        it.with_donl(self.has_donl);
        it.set_avc(self.is_avc);
        it
    }
}
