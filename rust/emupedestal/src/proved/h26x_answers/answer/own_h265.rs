// Made from crates/h26x_answers/src/answer/own_h265.rt by tools/to-rust.

//! Formats of H.265 that RFC 7798, section 7.1, lets an end say of itself.

use crate::proved::h26x_answers::answer::by_level::is_positive;
use crate::proved::h26x_answers::answer::same_number;
use crate::proved::h26x_answers::fault::{FormatFault, fault_below, fault_outside};
use crate::proved::h26x_fmtp::kind::BITS_8;
use crate::proved::h26x_fmtp::split_piece;
use crate::proved::h26x_profile::H265Profile;
use crate::proved::h26x_sdp::{H265Parameter, H265Parameters};

/// What a level asks of a decoder (Rec. ITU-T H.265, tables A.8 and A.9).
#[derive(Debug, Clone, Copy, PartialEq, Eq)]
pub(crate) struct TieredLimits {
    /// The level's id.
    pub(crate) level: u64,
    /// MaxLumaPs, luma samples of a picture.
    pub(crate) lps: u64,
    /// MaxLumaSr, luma samples in a second.
    pub(crate) lsr: u64,
    /// MaxTileRows and MaxTileCols.
    pub(crate) tiles: (u64, u64),
    /// MaxCPB and MaxBR of the Main tier.
    pub(crate) main: (u64, u64),
    /// Those of the High tier; where the standard has none, of the Main tier.
    pub(crate) high: (u64, u64),
}

/// The limits of a level.
fn limits(
    level: u64,
    samples: (u64, u64),
    tiles: (u64, u64),
    main: (u64, u64),
    high: (u64, u64),
) -> Option<TieredLimits> {
    Some(TieredLimits {
        level,
        lps: samples.0,
        lsr: samples.1,
        tiles,
        main,
        high,
    })
}

/// The limits of the level of an id, if the standard has one.
pub(crate) fn limits_of(level: u64) -> Option<TieredLimits> {
    match level {
        30 => limits(30, (36864, 552960), (1, 1), (350, 128), (350, 128)),
        60 => limits(60, (122880, 3686400), (1, 1), (1500, 1500), (1500, 1500)),
        63 => limits(63, (245760, 7372800), (1, 1), (3000, 3000), (3000, 3000)),
        90 => limits(90, (552960, 16588800), (2, 2), (6000, 6000), (6000, 6000)),
        93 => limits(
            93,
            (983040, 33177600),
            (3, 3),
            (10000, 10000),
            (10000, 10000),
        ),
        120 => limits(
            120,
            (2228224, 66846720),
            (5, 5),
            (12000, 12000),
            (30000, 30000),
        ),
        123 => limits(
            123,
            (2228224, 133693440),
            (5, 5),
            (20000, 20000),
            (50000, 50000),
        ),
        150 => limits(
            150,
            (8912896, 267386880),
            (11, 10),
            (25000, 25000),
            (100000, 100000),
        ),
        153 => limits(
            153,
            (8912896, 534773760),
            (11, 10),
            (40000, 40000),
            (160000, 160000),
        ),
        156 => limits(
            156,
            (8912896, 1069547520),
            (11, 10),
            (60000, 60000),
            (240000, 240000),
        ),
        180 => limits(
            180,
            (35651584, 1069547520),
            (22, 20),
            (60000, 60000),
            (240000, 240000),
        ),
        183 => limits(
            183,
            (35651584, 2139095040),
            (22, 20),
            (120000, 120000),
            (480000, 480000),
        ),
        186 => limits(
            186,
            (35651584, 4278190080),
            (22, 20),
            (240000, 240000),
            (800000, 800000),
        ),
        _ => None,
    }
}

/// MaxCPB and MaxBR in a format's tier.
fn of_tier(it: &H265Parameters, level: TieredLimits) -> (u64, u64) {
    if same_number(it.number_or_default(H265Parameter::TierFlag), Some(1)) {
        level.high
    } else {
        level.main
    }
}

/// The first limit that is below what the highest level asks for, or more than 16 times that, with
/// MaxCPB and MaxBR.
fn first_outside_in(
    it: &H265Parameters,
    level: TieredLimits,
    cpb: u64,
    br: u64,
) -> Option<FormatFault> {
    fault_outside(it, H265Parameter::MaxLsr, level.lsr)
        .or(fault_outside(it, H265Parameter::MaxLps, level.lps))
        .or(fault_outside(it, H265Parameter::MaxCpb, cpb))
        .or(fault_below(it, H265Parameter::MaxDpb, 6))
        .or(fault_outside(it, H265Parameter::MaxBr, br))
        .or(fault_outside(it, H265Parameter::MaxTr, level.tiles.0))
        .or(fault_outside(it, H265Parameter::MaxTc, level.tiles.1))
}

/// The same in the format's tier.
fn first_outside(it: &H265Parameters, level: TieredLimits) -> Option<FormatFault> {
    let of_tier = of_tier(it, level);
    first_outside_in(it, level, of_tier.0, of_tier.1)
}

/// What is wrong with what is said of packets out of order: where they bear decoding order numbers the
/// units and the bytes that are to be held are told.
fn reordering_fault(it: &H265Parameters) -> Option<FormatFault> {
    let units = is_positive(it.number_or_default(H265Parameter::SpropDepackBufNalus));
    let bytes = is_positive(it.number_or_default(H265Parameter::SpropDepackBufBytes));
    if !is_positive(it.number_or_default(H265Parameter::SpropMaxDonDiff)) || (units && bytes) {
        None
    } else {
        Some(FormatFault::Reordering)
    }
}

/// Whether a text is a list of types of hashes, with `,` between them, or empty.
fn are_hash_types(text: &[u8]) -> bool {
    if text.is_empty() {
        return true;
    }
    let mut rest = Some(text);
    while let Some(text) = rest {
        let (piece, behind) = split_piece(text, b',');
        if BITS_8.fault_in(piece).is_some() {
            return false;
        }
        rest = behind;
    }
    true
}

/// What is wrong with the types of hashes that are told.
fn hash_types_fault(it: &H265Parameters) -> Option<FormatFault> {
    match it.value(H265Parameter::IncludeDph) {
        Some(text) if !are_hash_types(text) => Some(FormatFault::HashTypes),
        _ => None,
    }
}

/// What is wrong with limits, reordering and types of hashes, at the highest level that is received.
fn fault_at(it: &H265Parameters, level: Option<TieredLimits>) -> Option<FormatFault> {
    match level {
        Some(level) => first_outside(it, level)
            .or(reordering_fault(it))
            .or(hash_types_fault(it)),
        None => Some(FormatFault::HighestLevel),
    }
}

/// The highest level that is received has to be above the level, where it's given.
fn fault_received(it: &H265Parameters, level: u64) -> Option<FormatFault> {
    match it.number(H265Parameter::MaxRecvLevelId) {
        None => fault_at(it, limits_of(level)),
        Some(received) if received <= level => Some(FormatFault::HighestLevel),
        Some(received) => fault_at(it, limits_of(received)),
    }
}

/// Whether a number is the id of a profile of the standard.
fn is_profile(id: Option<u64>) -> bool {
    match id {
        Some(id) if id < 256 => H265Profile::from_id(id as u8).is_some(),
        _ => false,
    }
}

/// Whether a format's profile is one of the standard's.
fn has_profile(it: &H265Parameters) -> bool {
    same_number(it.number_or_default(H265Parameter::ProfileSpace), Some(0))
        && is_profile(it.number_or_default(H265Parameter::ProfileId))
}

/// Whether a number is the id of a level of the standard.
fn is_level(id: Option<u64>) -> bool {
    match id {
        Some(id) => limits_of(id).is_some(),
        None => false,
    }
}

/// Whether a format's profile and level are the standard's.
pub(crate) fn is_known(it: &H265Parameters) -> bool {
    has_profile(it) && is_level(it.number_or_default(H265Parameter::LevelId))
}

/// The first rule that a format of one's own breaks.
pub(crate) fn fault(it: &H265Parameters) -> Option<FormatFault> {
    if !has_profile(it) {
        return Some(FormatFault::Profile);
    }
    match it.number_or_default(H265Parameter::LevelId) {
        Some(level) if limits_of(level).is_some() => fault_received(it, level),
        _ => Some(FormatFault::Level),
    }
}
