//! Which answers of H.265 there are, what is agreed, and which declared formats are received, read plainly (RFC 7798, 7.1,
//! 7.2.2 with its table 1, and 7.2.3; of WebRTC's peers libwebrtc's codec_comparators.cc).

use super::reading::{Format, Kind::*, Row, Rules, Stream, fault, rows};

const ANY: u64 = u64::MAX;
const WORD: u64 = u32::MAX as u64;

rows! {
    SPACE "profile-space" "CCP" Number(0, 3), Some("0");
    PROFILE "profile-id" "CCP" Number(0, 31), Some("1");
    TIER "tier-flag" "CCP" Number(0, 1), Some("0");
    LEVEL "level-id" "DDP" Number(0, 255), Some("93");
    CONSTRAINTS "interop-constraints" "CCP" Digits(12), Some("B00000000000");
    COMPATIBLE "profile-compatibility-indicator" "CCP" Digits(8), None;
    SENT_SUB_LAYER "sprop-sub-layer-id" "P-P" Number(0, 6), Some("6");
    SUB_LAYER "recv-sub-layer-id" "OO-" Number(0, 6), None;
    HIGHEST "max-recv-level-id" "RR-" Number(0, 255), None;
    MODE "tx-mode" "CCP" Mode, Some("SRST");
    VPS "sprop-vps" "P-P" Text, None;
    SPS "sprop-sps" "P-P" Text, None;
    PPS "sprop-pps" "P-P" Text, None;
    SEI "sprop-sei" "P-P" Text, None;
    MAX_LSR "max-lsr" "RR-" Number(0, ANY), None;
    MAX_LPS "max-lps" "RR-" Number(0, WORD), None;
    MAX_CPB "max-cpb" "RR-" Number(0, ANY), None;
    MAX_DPB "max-dpb" "RR-" Number(1, 16), Some("6");
    MAX_BR "max-br" "RR-" Number(0, ANY), None;
    MAX_TR "max-tr" "RR-" Number(0, ANY), None;
    MAX_TC "max-tc" "RR-" Number(0, ANY), None;
    MAX_FPS "max-fps" "RR-" Number(0, ANY), None;
    DON_DIFF "sprop-max-don-diff" "P-P" Number(0, 32767), Some("0");
    UNITS "sprop-depack-buf-nalus" "P-P" Number(0, 32767), Some("0");
    NEED "sprop-depack-buf-bytes" "P-P" Number(0, WORD), Some("0");
    ROOM "depack-buf-cap" "RR-" Number(1, WORD), Some("4294967295");
    SEGMENTATION "sprop-segmentation-id" "P-P" Number(0, 3), Some("0");
    SPATIAL "sprop-spatial-segmentation-idc" "P-P" Hexadecimal(4095), None;
    POINTS "dec-parallel-cap" "RR-" Text, None;
    DPH "include-dph" "RR-" Text, None;
}

/// Rec. ITU-T H.265, tables A.8 and A.9: 30 times the level, MaxLumaSr, MaxLumaPs, MaxTileRows, MaxTileCols, MaxCPB of the
/// Main and of the High tier, MaxBR of both.
#[rustfmt::skip]
const LEVELS: [[u64; 9]; 13] = [
    [30, 552960, 36864, 1, 1, 350, 350, 128, 128],
    [60, 3686400, 122880, 1, 1, 1500, 1500, 1500, 1500],
    [63, 7372800, 245760, 1, 1, 3000, 3000, 3000, 3000],
    [90, 16588800, 552960, 2, 2, 6000, 6000, 6000, 6000],
    [93, 33177600, 983040, 3, 3, 10000, 10000, 10000, 10000],
    [120, 66846720, 2228224, 5, 5, 12000, 30000, 12000, 30000],
    [123, 133693440, 2228224, 5, 5, 20000, 50000, 20000, 50000],
    [150, 267386880, 8912896, 11, 10, 25000, 100000, 25000, 100000],
    [153, 534773760, 8912896, 11, 10, 40000, 160000, 40000, 160000],
    [156, 1069547520, 8912896, 11, 10, 60000, 240000, 60000, 240000],
    [180, 1069547520, 35651584, 22, 20, 60000, 240000, 60000, 240000],
    [183, 2139095040, 35651584, 22, 20, 120000, 480000, 120000, 480000],
    [186, 4278190080, 35651584, 22, 20, 240000, 800000, 240000, 800000],
];

/// Whether the standard has the profile and the level.
fn is_known(it: &Format) -> bool {
    let level = it.number(LEVEL);
    it.number(SPACE) == 0
        && (1..=11).contains(&it.number(PROFILE))
        && LEVELS.iter().any(|row| row[0] == level)
}

/// The highest level that an end receives.
fn highest(it: &Format) -> u64 {
    let level = it.number(LEVEL);
    level.max(it.given_number(HIGHEST).unwrap_or(0))
}

/// Whether an end may say this of itself (section 7.1).
pub fn is_allowed(own: &Format, rules: Rules) -> bool {
    let highest = highest(own);
    let Some(row) = LEVELS.iter().find(|row| row[0] == highest) else {
        return false;
    };
    let [_, lsr, lps, tr, tc, rates @ ..] = *row;
    let tier = own.number(TIER) as usize;
    let of_level = [(MAX_LSR, lsr), (MAX_LPS, lps), (MAX_TR, tr), (MAX_TC, tc)];
    let of_tier = [(MAX_CPB, rates[tier]), (MAX_BR, rates[2 + tier])];
    let mut limits = of_level.iter().chain(&of_tier);
    let fits = |row: usize, least: u64| {
        own.given_number(row)
            .is_none_or(|it| (least..=16 * least).contains(&it))
    };
    let has_dpb = own.number(MAX_DPB) >= 6;
    let has_hashes = own.given(DPH).is_none_or(|it| {
        it.is_empty() || it.split(',').all(|it| fault(Number(0, 255), it).is_none())
    });
    let is_reordered = own.number(DON_DIFF) > 0;
    let is_told = own.number(UNITS) > 0 && own.number(NEED) > 0;
    is_known(own)
        && (!own.gives(&[HIGHEST]) || highest > own.number(LEVEL))
        && limits.all(|it| fits(it.0, it.1))
        && has_dpb
        && has_hashes
        && (!is_reordered || is_told && rules.any_order)
}

/// The flags of compatible profiles.
fn flags(it: &Format) -> u64 {
    match it.given(COMPATIBLE) {
        Some(digits) => u64::from_str_radix(digits, 16).expect("digits"),
        None => 1 << (31 - it.number(PROFILE)),
    }
}

/// Whether an end can put in order what another sends.
fn can_order(sender: &Format, receiver: &Format, rules: Rules) -> bool {
    let (units, need) = (sender.number(UNITS), sender.number(NEED));
    let is_held = units > 0 && need > 0 && need <= receiver.number(ROOM);
    sender.number(DON_DIFF) == 0 || rules.any_order && is_held
}

const CONFIGURATION: [usize; 4] = [SPACE, PROFILE, TIER, MODE];

/// Whether two formats are of one configuration but for the level.
fn is_one(theirs: &Format, own: &Format, rules: Rules) -> bool {
    let constraints = [CONSTRAINTS];
    theirs.agrees(own, &CONFIGURATION)
        && (rules.webrtc || theirs.agrees(own, &constraints) && flags(theirs) == flags(own))
}

/// The answer to what is heard of an offer by what is heard of ours.
pub fn answer<'a>(offer: &Format<'a>, own: &Format<'a>, rules: Rules) -> Option<Format<'a>> {
    let keeps_level = !rules.multicast || own.number(LEVEL) >= offer.number(LEVEL);
    let has_order = can_order(offer, own, rules) && can_order(own, offer, rules);
    if !(is_known(offer) && is_one(offer, own, rules) && keeps_level && has_order) {
        return None;
    }
    let mut answer = own.clone();
    answer.take_from(offer, &CONFIGURATION);
    answer.take_from(offer, &[CONSTRAINTS, COMPATIBLE]);
    answer.take_away(&[SUB_LAYER]);
    super::lower_levels(offer, own, &mut answer, [LEVEL, HIGHEST]);
    if own.number(LEVEL) > offer.number(LEVEL) {
        answer.take_away(&[VPS, SPS, PPS]);
    }
    Some(answer)
}

/// The stream that one end sends and another receives.
pub fn stream(sender: &Format, receiver: &Format) -> Stream {
    let are_told = sender.gives(&[VPS, SPS, PPS]);
    Stream {
        level: highest(receiver),
        mode: None,
        sets: if are_told { "told" } else { "in band" },
    }
}

/// Whether an end receives what is declared as it is.
pub fn accepts(declared: &Format, own: &Format, rules: Rules) -> bool {
    is_known(declared)
        && is_allowed(own, rules)
        && is_one(declared, own, rules)
        && declared.number(LEVEL) <= highest(own)
        && can_order(declared, own, rules)
}
