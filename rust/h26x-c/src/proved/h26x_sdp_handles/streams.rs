// Made from crates/h26x_sdp_handles/src/streams.rt by tools/to-rust.

//! What two formats agree on, as numbers, and which declared ones are received.

use crate::proved::h26x_answers::{
    Agreed, AgreedSets, AgreedStream, AnswerConfig, accepts_declared, agreed_streams,
};
use crate::proved::h26x_sdp_handles::sdp::SdpEndpoint;
use core::slice;

/// A stream from one end to the other, as C is told it; where there is none all of it is 0.
#[repr(C)]
#[derive(Debug, Clone, Copy, PartialEq, Eq)]
pub struct StreamNumbers {
    /// The highest level of it: of H.264 twice `level_idc`, and 21 for level 1b; of H.265 and H.266 as
    /// `level-id` says it.
    pub level: u64,
    /// `packetization-mode` of H.264.
    pub mode: u64,
    /// Where its parameter sets are: 0 in band, 1 told, 2 told of the level.
    pub sets: u32,
    /// Whether there is one.
    pub is_there: bool,
    /// Whether it has a mode.
    pub has_mode: bool,
}

/// The number of where parameter sets are.
fn number_of_sets(sets: AgreedSets) -> u32 {
    match sets {
        AgreedSets::InBand => 0,
        AgreedSets::Told => 1,
        AgreedSets::ToldOfLevel => 2,
    }
}

/// A mode, and whether there is one.
fn numbers_of_mode(mode: Option<u64>) -> (u64, bool) {
    match mode {
        Some(mode) => (mode, true),
        None => (0, false),
    }
}

/// A stream in numbers.
pub fn numbers_of_stream(stream: Option<AgreedStream>) -> StreamNumbers {
    let Some(stream) = stream else {
        return StreamNumbers {
            level: 0,
            mode: 0,
            sets: 0,
            is_there: false,
            has_mode: false,
        };
    };
    let (mode, has_mode) = numbers_of_mode(stream.mode);
    StreamNumbers {
        level: stream.level,
        mode,
        sets: number_of_sets(stream.sets),
        is_there: true,
        has_mode,
    }
}

impl SdpEndpoint {
    /// What is agreed by an offered format and its answer, of the end that wrote this one; nothing of
    /// two codecs.
    pub fn agreed(&self, config: AnswerConfig, other: &SdpEndpoint) -> Option<Agreed> {
        match (self, other) {
            (SdpEndpoint::H264(own), SdpEndpoint::H264(other)) => {
                Some(agreed_streams(config, own.parameters(), other.parameters()))
            }
            (SdpEndpoint::H265(own), SdpEndpoint::H265(other)) => {
                Some(agreed_streams(config, own.parameters(), other.parameters()))
            }
            (SdpEndpoint::H266(own), SdpEndpoint::H266(other)) => {
                Some(agreed_streams(config, own.parameters(), other.parameters()))
            }
            _ => None,
        }
    }

    /// Whether a format of ours receives this one, which is declared; not of another codec.
    pub fn is_accepted(&self, config: AnswerConfig, own: &SdpEndpoint) -> bool {
        match (self, own) {
            (SdpEndpoint::H264(declared), SdpEndpoint::H264(own)) => {
                let ours = slice::from_ref(own.parameters());
                accepts_declared(config, declared.parameters(), ours)
            }
            (SdpEndpoint::H265(declared), SdpEndpoint::H265(own)) => {
                let ours = slice::from_ref(own.parameters());
                accepts_declared(config, declared.parameters(), ours)
            }
            (SdpEndpoint::H266(declared), SdpEndpoint::H266(own)) => {
                let ours = slice::from_ref(own.parameters());
                accepts_declared(config, declared.parameters(), ours)
            }
            _ => false,
        }
    }
}
