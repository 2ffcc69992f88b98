// Made from crates/h26x_answers/src/agreed.rt by tools/to-rust.

//! What an offer and its answer agree on, as an end of them sees it (RFC 6184, sections 8.1 and 8.2.2;
//! RFC 7798, section 7.2.2; RFC 9328, section 7.3.2).

use crate::proved::h26x_answers::answer::by_level::{LevelParameters, levels_of};
use crate::proved::h26x_answers::answer::h264::{
    ProfileLevelId, both_asymmetric, highest_rank, id_of, is_on,
};
use crate::proved::h26x_answers::answer::{AnswerConfig, AnswerRules, CodecRules, h265, h266};
use crate::proved::h26x_answers::direction::Direction;
use crate::proved::h26x_sdp::{
    CodecParameters, H264Parameter, H264Parameters, H265Parameter, H265Parameters, H266Parameter,
    H266Parameters,
};

/// Where the parameter sets of a stream are.
#[derive(Debug, Clone, Copy, PartialEq, Eq)]
pub enum AgreedSets {
    /// In the stream: the sender sends them with its units, and the receiver starts with none.
    InBand,
    /// In the sender's format: `sprop-parameter-sets`, or `sprop-vps`, `sprop-sps` and `sprop-pps`.
    Told,
    /// In its `sprop-level-parameter-sets`, those of the stream's level.
    ToldOfLevel,
}

/// A stream from one end to the other.
#[derive(Debug, Clone, Copy, PartialEq, Eq)]
pub struct AgreedStream {
    /// The highest level of it: of H.264 twice `level_idc`, and 21 for level 1b; of H.265 and H.266 as
    /// `level-id` says it.
    pub level: u64,
    /// `packetization-mode` of H.264; `None` of H.265 and H.266.
    pub mode: Option<u64>,
    /// Where its parameter sets are.
    pub sets: AgreedSets,
}

/// What an end sends and receives; `None` where its direction has none of it, and where a format says
/// no level.
#[derive(Debug, Clone, Copy, PartialEq, Eq)]
pub struct Agreed {
    /// What it sends.
    pub sends: Option<AgreedStream>,
    /// What it receives.
    pub receives: Option<AgreedStream>,
}

/// The streams of a codec between two ends.
pub trait CodecStreams: CodecRules {
    /// The stream from one end to the other, by what both wrote, of a direction of either.
    fn stream(
        rules: AnswerRules,
        direction: Direction,
        sender: &CodecParameters<Self>,
        receiver: &CodecParameters<Self>,
    ) -> Option<AgreedStream>;
}

/// What is agreed by an offered format and its answer, of the end that wrote `own`, in its direction
/// `config.direction`: whichever of the two it is. No memory is taken.
///
/// A receiver starts with the other end's parameter sets where `receives.sets` says that they're told.
pub fn agreed_streams<P: CodecStreams>(
    config: AnswerConfig,
    own: &CodecParameters<P>,
    other: &CodecParameters<P>,
) -> Agreed {
    let sends = match config.direction {
        Direction::RecvOnly => None,
        _ => P::stream(config.rules, config.direction, own, other),
    };
    let receives = match config.direction {
        Direction::SendOnly => None,
        _ => P::stream(config.rules, config.direction, other, own),
    };
    Agreed { sends, receives }
}

/// The level to use from one end to the other: both ways the highest that the receiver takes, where
/// each direction has its own, and else the lower of both.
fn level_to_use(
    direction: Direction,
    sender: &H264Parameters,
    receiver: &H264Parameters,
    s: ProfileLevelId,
    r: ProfileLevelId,
) -> u16 {
    match direction {
        Direction::SendRecv if both_asymmetric(sender, receiver) => highest_rank(receiver, r),
        _ => s.level_rank().min(r.level_rank()),
    }
}

/// Where the parameter sets of a stream of H.264 are, at the level to use and that of the sender.
fn sets_to_use(
    sender: &H264Parameters,
    receiver: &H264Parameters,
    level: u16,
    own: u16,
) -> AgreedSets {
    if is_on(receiver, H264Parameter::InBandParameterSets) {
        return AgreedSets::InBand;
    }
    if level == own && sender.value(H264Parameter::SpropParameterSets).is_some() {
        return AgreedSets::Told;
    }
    if level != own
        && is_on(receiver, H264Parameter::UseLevelSrcParameterSets)
        && sender
            .value(H264Parameter::SpropLevelParameterSets)
            .is_some()
    {
        return AgreedSets::ToldOfLevel;
    }
    AgreedSets::InBand
}

impl CodecStreams for H264Parameter {
    fn stream(
        rules: AnswerRules,
        direction: Direction,
        sender: &H264Parameters,
        receiver: &H264Parameters,
    ) -> Option<AgreedStream> {
        let (Some(s), Some(r)) = (id_of(rules, sender), id_of(rules, receiver)) else {
            return None;
        };
        let level = level_to_use(direction, sender, receiver, s, r);
        Some(AgreedStream {
            level: u64::from(level),
            mode: sender.number_or_default(H264Parameter::PacketizationMode),
            sets: sets_to_use(sender, receiver, level, s.level_rank()),
        })
    }
}

/// A stream whose level is a number, and whether its parameter sets are told.
fn stream_by_level<P: CodecRules>(
    by: &LevelParameters<P>,
    receiver: &CodecParameters<P>,
    told: bool,
) -> Option<AgreedStream> {
    let sets = if told {
        AgreedSets::Told
    } else {
        AgreedSets::InBand
    };
    match levels_of(by, receiver) {
        Some(levels) => Some(AgreedStream {
            level: levels.highest,
            mode: None,
            sets,
        }),
        None => None,
    }
}

impl CodecStreams for H265Parameter {
    fn stream(
        _rules: AnswerRules,
        _direction: Direction,
        sender: &H265Parameters,
        receiver: &H265Parameters,
    ) -> Option<AgreedStream> {
        let told = sender.value(H265Parameter::SpropVps).is_some()
            && (sender.value(H265Parameter::SpropSps).is_some()
                && sender.value(H265Parameter::SpropPps).is_some());
        stream_by_level(&h265::BY, receiver, told)
    }
}

impl CodecStreams for H266Parameter {
    fn stream(
        _rules: AnswerRules,
        _direction: Direction,
        sender: &H266Parameters,
        receiver: &H266Parameters,
    ) -> Option<AgreedStream> {
        let told = sender.value(H266Parameter::SpropSps).is_some()
            && sender.value(H266Parameter::SpropPps).is_some();
        stream_by_level(&h266::BY, receiver, told)
    }
}
