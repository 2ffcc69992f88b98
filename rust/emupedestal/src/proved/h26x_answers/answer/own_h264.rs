// Made from crates/h26x_answers/src/answer/own_h264.rt by tools/to-rust.

//! Formats of H.264 that RFC 6184, section 8.1, lets an end say of itself.

use crate::proved::h26x_answers::answer::AnswerRules;
use crate::proved::h26x_answers::answer::h264::{
    ProfileLevelId, id_of, is_interleaved, is_on, recv_rank,
};
use crate::proved::h26x_answers::fault::{FormatFault, fault_below};
use crate::proved::h26x_sdp::{H264Parameter, H264Parameters};

/// What a level asks of a decoder (Rec. ITU-T H.264, table A-1).
#[derive(Debug, Clone, Copy, PartialEq, Eq)]
pub(crate) struct LevelLimits {
    /// The level, in the order of levels.
    pub(crate) rank: u16,
    /// MaxMBPS, macroblocks in a second.
    pub(crate) mbps: u64,
    /// MaxFS, macroblocks of a frame.
    pub(crate) fs: u64,
    /// MaxDpbMbs in units of 8/3 macroblocks, as `max-dpb` has them, rounded up.
    pub(crate) dpb: u64,
    /// MaxBR, in units of 1000 or 1200 bits a second.
    pub(crate) br: u64,
    /// MaxCPB, in units of 1000 or 1200 bits.
    pub(crate) cpb: u64,
}

/// The limits of a level.
fn limits(rank: u16, mbps: u64, fs: u64, dpb: u64, br: u64, cpb: u64) -> Option<LevelLimits> {
    Some(LevelLimits {
        rank,
        mbps,
        fs,
        dpb,
        br,
        cpb,
    })
}

/// The limits of the level of a rank, if the standard has one.
pub(crate) fn limits_of(rank: u16) -> Option<LevelLimits> {
    match rank {
        20 => limits(20, 1485, 99, 149, 64, 175),
        21 => limits(21, 1485, 99, 149, 128, 350),
        22 => limits(22, 3000, 396, 338, 192, 500),
        24 => limits(24, 6000, 396, 891, 384, 1000),
        26 => limits(26, 11880, 396, 891, 768, 2000),
        40 => limits(40, 11880, 396, 891, 2000, 2000),
        42 => limits(42, 19800, 792, 1782, 4000, 4000),
        44 => limits(44, 20250, 1620, 3038, 4000, 4000),
        60 => limits(60, 40500, 1620, 3038, 10000, 10000),
        62 => limits(62, 108000, 3600, 6750, 14000, 14000),
        64 => limits(64, 216000, 5120, 7680, 20000, 20000),
        80 => limits(80, 245760, 8192, 12288, 20000, 25000),
        82 => limits(82, 245760, 8192, 12288, 50000, 62500),
        84 => limits(84, 522240, 8704, 13056, 50000, 62500),
        100 => limits(100, 589824, 22080, 41400, 135000, 135000),
        102 => limits(102, 983040, 36864, 69120, 240000, 240000),
        104 => limits(104, 2073600, 36864, 69120, 240000, 240000),
        120 => limits(120, 4177920, 139264, 261120, 240000, 240000),
        122 => limits(122, 8355840, 139264, 261120, 480000, 480000),
        124 => limits(124, 16711680, 139264, 261120, 800000, 800000),
        _ => None,
    }
}

/// The first limit that is below what the highest level asks for.
fn first_below(it: &H264Parameters, level: LevelLimits) -> Option<FormatFault> {
    let smbps = it.number(H264Parameter::MaxMbps).unwrap_or(level.mbps);
    fault_below(it, H264Parameter::MaxMbps, level.mbps)
        .or(fault_below(it, H264Parameter::MaxSmbps, smbps))
        .or(fault_below(it, H264Parameter::MaxFs, level.fs))
        .or(fault_below(it, H264Parameter::MaxCpb, level.cpb))
        .or(fault_below(it, H264Parameter::MaxDpb, level.dpb))
        .or(fault_below(it, H264Parameter::MaxBr, level.br))
}

/// What is wrong with what is said of packets out of order: in mode 2 the depth and the buffer that the
/// stream needs are told, and in the others nothing is.
fn reordering_fault(it: &H264Parameters) -> Option<FormatFault> {
    let depth = it.value(H264Parameter::SpropInterleavingDepth).is_some();
    let need = it.value(H264Parameter::SpropDeintBufReq).is_some();
    let time = it.value(H264Parameter::SpropInitBufTime).is_some();
    let difference = it.value(H264Parameter::SpropMaxDonDiff).is_some();
    let fits = if is_interleaved(it) {
        depth && need
    } else {
        !(depth || need) && !(time || difference)
    };
    if fits {
        None
    } else {
        Some(FormatFault::Reordering)
    }
}

/// Whether aspect ratios are supported up to the last that is understood, or, by 255, all.
fn ratios_fit(understood: Option<u64>, supported: Option<u64>) -> bool {
    match (understood, supported) {
        (Some(understood), Some(supported)) => supported == 255 || supported <= understood,
        _ => true,
    }
}

/// Whether who discards parameter sets that are told uses none of other levels.
fn in_band_fits(it: &H264Parameters) -> bool {
    !is_on(it, H264Parameter::InBandParameterSets)
        || !is_on(it, H264Parameter::UseLevelSrcParameterSets)
}

/// What is wrong with what is said of aspect ratios and of parameter sets in band.
fn receiver_fault(it: &H264Parameters) -> Option<FormatFault> {
    let understood = it.number_or_default(H264Parameter::SarUnderstood);
    if !ratios_fit(
        understood,
        it.number_or_default(H264Parameter::SarSupported),
    ) {
        Some(FormatFault::AspectRatios)
    } else if in_band_fits(it) {
        None
    } else {
        Some(FormatFault::InBandSets)
    }
}

/// What is wrong with limits, reordering and what a receiver says, at the highest level that is
/// received.
fn fault_at(it: &H264Parameters, level: Option<LevelLimits>) -> Option<FormatFault> {
    match level {
        Some(level) => first_below(it, level)
            .or(reordering_fault(it))
            .or(receiver_fault(it)),
        None => Some(FormatFault::HighestLevel),
    }
}

/// The highest level that is received has to be above the level, where it's given.
fn fault_received(it: &H264Parameters, rank: u16) -> Option<FormatFault> {
    match it.value(H264Parameter::MaxRecvLevel) {
        None => fault_at(it, limits_of(rank)),
        Some(text) => {
            let received = recv_rank(text);
            if received <= rank {
                Some(FormatFault::HighestLevel)
            } else {
                fault_at(it, limits_of(received))
            }
        }
    }
}

/// Whether a level is one of the standard's.
fn is_level(id: ProfileLevelId) -> bool {
    !id.is_1b_without_flag() && limits_of(id.level_rank()).is_some()
}

/// Whether a format's profile and level are the standard's.
pub(crate) fn is_known(rules: AnswerRules, it: &H264Parameters) -> bool {
    match id_of(rules, it) {
        Some(id) => id.has_profile() && is_level(id),
        None => false,
    }
}

/// The first rule that a format of one's own breaks.
pub(crate) fn fault(rules: AnswerRules, it: &H264Parameters) -> Option<FormatFault> {
    match id_of(rules, it) {
        Some(id) if !id.has_profile() => Some(FormatFault::Profile),
        Some(id) if is_level(id) => fault_received(it, id.level_rank()),
        _ => Some(FormatFault::Level),
    }
}
