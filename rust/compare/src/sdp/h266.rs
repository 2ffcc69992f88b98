//! Which answers of H.266 there are, what is agreed, and which declared formats are received, read plainly (RFC 9328, 7.2,
//! 7.3.2 with its figure 11, and 7.3.3).

use super::reading::{Format, Kind::*, Row, Rules, Stream, rows};

const ANY: u64 = u64::MAX;
const WORD: u64 = u32::MAX as u64;

rows! {
    PROFILE "profile-id" "CCP" Number(0, 127), Some("1");
    TIER "tier-flag" "CCP" Number(0, 1), Some("0");
    SUB_PROFILE "sub-profile-id" "CCP" Text, None;
    CONSTRAINTS "interop-constraints" "CCP" Text, Some("gA==");
    LEVEL "level-id" "DDP" Number(0, 255), Some("51");
    SENT_SUBLAYER "sprop-sublayer-id" "P-P" Number(0, 6), Some("6");
    SENT_OLS "sprop-ols-id" "P-P" Number(0, 256), None;
    SUBLAYER "recv-sublayer-id" "OO-" Number(0, 6), None;
    OLS "recv-ols-id" "OO-" Number(0, 256), None;
    HIGHEST "max-recv-level-id" "RR-" Number(0, 255), None;
    DCI "sprop-dci" "P-P" Text, None;
    VPS "sprop-vps" "P-P" Text, None;
    SPS "sprop-sps" "P-P" Text, None;
    PPS "sprop-pps" "P-P" Text, None;
    SEI "sprop-sei" "P-P" Text, None;
    MAX_LSR "max-lsr" "RR-" Number(0, ANY), None;
    MAX_FPS "max-fps" "RR-" Number(0, ANY), None;
    DON_DIFF "sprop-max-don-diff" "P-P" Number(0, 32767), Some("0");
    NEED "sprop-depack-buf-bytes" "P-P" Number(0, WORD), Some("0");
    ROOM "depack-buf-cap" "RR-" Number(1, WORD), Some("4294967295");
}

/// Rec. ITU-T H.266, annex A: profiles of one layer, those of several; 16 times the level's
/// number and 3 times what stands behind its point, with MaxLumaSr, of which 15.5 has none.
const ONE_LAYER: [u64; 4] = [1, 33, 65, 97];
const LAYERS: [u64; 4] = [17, 49, 81, 113];
#[rustfmt::skip]
const LEVELS: [(u64, u64); 15] = [
    (16, 552960), (32, 3686400), (35, 7372800), (48, 16588800), (51, 33177600), (64, 66846720), (67, 133693440),
    (80, 267386880), (83, 534773760), (86, 1069547520), (96, 1069547520), (99, 2139095040), (102, 4278190080),
    (105, 4812963840), (255, 0),
];

/// MaxLumaSr of a level, if the standard has that; 0 where there is none.
fn rate(level: u64) -> Option<u64> {
    LEVELS.iter().find(|it| it.0 == level).map(|it| it.1)
}

/// Whether the standard has the profile and the level.
fn is_known(it: &Format) -> bool {
    let profile = it.number(PROFILE);
    (ONE_LAYER.contains(&profile) || LAYERS.contains(&profile)) && rate(it.number(LEVEL)).is_some()
}

/// Whether a rate of luma samples is at least the level's, and at most 16 times that.
fn fits(lsr: u64, level: u64) -> bool {
    rate(level).is_some_and(|least| least == 0 || (least..=16 * least).contains(&lsr))
}

/// Whether an end may say this of itself (section 7.2).
pub fn is_allowed(own: &Format, rules: Rules) -> bool {
    let level = own.number(LEVEL);
    let highest = own.given_number(HIGHEST);
    let is_reordered = own.number(DON_DIFF) > 0;
    is_known(own)
        && highest.is_none_or(|it| rate(it).is_some() && it > level)
        && own
            .given_number(MAX_LSR)
            .is_none_or(|it| fits(it, highest.unwrap_or(level)))
        && (!is_reordered || own.number(NEED) > 0 && rules.any_order)
}

/// Whether an end can put in order what another sends.
fn can_order(sender: &Format, receiver: &Format, rules: Rules) -> bool {
    let need = sender.number(NEED);
    let is_held = need > 0 && need <= receiver.number(ROOM);
    sender.number(DON_DIFF) == 0 || rules.any_order && is_held
}

const CONFIGURATION: [usize; 4] = [PROFILE, TIER, SUB_PROFILE, CONSTRAINTS];

/// The answer to what is heard of an offer by what is heard of ours.
pub fn answer<'a>(offer: &Format<'a>, own: &Format<'a>, rules: Rules) -> Option<Format<'a>> {
    let is_one = offer.agrees(own, &CONFIGURATION);
    let keeps_level = !rules.multicast || own.number(LEVEL) >= offer.number(LEVEL);
    let has_order = can_order(offer, own, rules) && can_order(own, offer, rules);
    if !(is_known(offer) && is_one && keeps_level && has_order) {
        return None;
    }
    let mut answer = own.clone();
    answer.take_from(offer, &CONFIGURATION);
    answer.take_away(&[SUBLAYER, OLS]);
    super::lower_levels(offer, own, &mut answer, [LEVEL, HIGHEST]);
    if own.number(LEVEL) > offer.number(LEVEL) {
        answer.take_away(&[DCI, VPS, SPS, PPS]);
    }
    // With layers sprop-vps is configuration too.
    let has_layers = LAYERS.contains(&offer.number(PROFILE));
    let vps = VPS;
    (!has_layers || answer.given(vps) == offer.given(vps)).then_some(answer)
}

/// The highest level that an end receives.
fn highest(it: &Format) -> u64 {
    let level = it.number(LEVEL);
    level.max(it.given_number(HIGHEST).unwrap_or(0))
}

/// The stream that one end sends and another receives; a VPS is of streams with layers alone.
pub fn stream(sender: &Format, receiver: &Format) -> Stream {
    let are_told = sender.gives(&[SPS, PPS]);
    Stream {
        level: highest(receiver),
        mode: None,
        sets: if are_told { "told" } else { "in band" },
    }
}

/// Whether an end receives what is declared as it is.
pub fn accepts(declared: &Format, own: &Format, rules: Rules) -> bool {
    is_known(declared)
        && is_allowed(own, rules)
        && declared.agrees(own, &CONFIGURATION)
        && declared.number(LEVEL) <= highest(own)
        && can_order(declared, own, rules)
}
