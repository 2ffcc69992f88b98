// Made from crates/h26x_answers/src/answer/h264.rt by tools/to-rust.

//! Answers to offers of H.264 (RFC 6184, section 8.2.2).

use crate::proved::h26x_answers::answer::{
    AnswerRules, CodecRules, Role, Terms, copy_of, holds, own_h264, same_number,
};
use crate::proved::h26x_answers::direction::Usage;
use crate::proved::h26x_answers::fault::FormatFault;
use crate::proved::h26x_profile::{H264LevelIdc, H264Profile, H264ProfileIdc, H264ProfileLevel};
use crate::proved::h26x_sdp::{H264Parameter, H264Parameters, LevelSets};
use crate::support::AllocError;
use crate::support::hex::FromHex;
use alloc::vec::Vec;

/// What each parameter is, in the order of the table.
static ROLES: [Role; 23] = [
    // profile-level-id and max-recv-level
    Role::Level,
    Role::Own,
    // max-mbps, max-smbps, max-fs, max-cpb, max-dpb, max-br and redundant-pic-cap
    Role::Own,
    Role::Own,
    Role::Own,
    Role::Own,
    Role::Own,
    Role::Own,
    Role::Own,
    // sprop-parameter-sets and sprop-level-parameter-sets
    Role::Sets,
    Role::LevelSets,
    // use-level-src-parameter-sets, in-band-parameter-sets and level-asymmetry-allowed
    Role::Own,
    Role::Own,
    Role::Asymmetry,
    // packetization-mode
    Role::Configuration,
    // sprop-interleaving-depth, sprop-deint-buf-req and deint-buf-cap
    Role::Reordering,
    Role::Reordering,
    Role::Own,
    // sprop-init-buf-time and sprop-max-don-diff
    Role::Reordering,
    Role::Reordering,
    // max-rcmd-nalu-size, sar-understood and sar-supported
    Role::Own,
    Role::Own,
    Role::Own,
];

/// In which directions each parameter is usable, in the order of the table.
static USAGES: [Usage; 23] = [
    // profile-level-id and max-recv-level
    Usage::Always,
    Usage::Receiving,
    // max-mbps, max-smbps, max-fs, max-cpb, max-dpb, max-br and redundant-pic-cap
    Usage::Receiving,
    Usage::Receiving,
    Usage::Receiving,
    Usage::Receiving,
    Usage::Receiving,
    Usage::Receiving,
    Usage::Receiving,
    // sprop-parameter-sets and sprop-level-parameter-sets
    Usage::Sending,
    Usage::Sending,
    // use-level-src-parameter-sets, in-band-parameter-sets and level-asymmetry-allowed
    Usage::Receiving,
    Usage::Receiving,
    Usage::Both,
    // packetization-mode
    Usage::Always,
    // sprop-interleaving-depth, sprop-deint-buf-req and deint-buf-cap
    Usage::Sending,
    Usage::Sending,
    Usage::Receiving,
    // sprop-init-buf-time and sprop-max-don-diff
    Usage::Sending,
    Usage::Sending,
    // max-rcmd-nalu-size, sar-understood and sar-supported
    Usage::Receiving,
    Usage::Receiving,
    Usage::Receiving,
];

/// The three bytes of a `profile-level-id` (RFC 6184, section 8.1).
#[derive(Debug, Clone, Copy, PartialEq, Eq)]
pub(crate) struct ProfileLevelId {
    profile_idc: u8,
    profile_iop: u8,
    level_idc: u8,
}

impl ProfileLevelId {
    /// The bytes of six digits.
    fn read(text: &[u8]) -> Option<Self> {
        let bytes = <[u8; 3] as FromHex>::from_hex(text).ok()?;
        Some(ProfileLevelId {
            profile_idc: bytes[0],
            profile_iop: bytes[1],
            level_idc: bytes[2],
        })
    }

    /// Six digits.
    fn write(self) -> Result<Vec<u8>, AllocError> {
        let bytes = [self.profile_idc, self.profile_iop, self.level_idc];
        Ok(crate::support::hex::encode(bytes)?.into_bytes())
    }

    /// Whether constraint_set3_flag, bit 4, is of the level and not of the profile.
    fn has_level_flag(self) -> bool {
        matches!(self.profile_idc, 66 | 77 | 88)
    }

    /// The flags without that of the level.
    fn profile_flags(self) -> u8 {
        if self.has_level_flag() {
            self.profile_iop - (self.profile_iop >> 4 & 1) * 16
        } else {
            self.profile_iop
        }
    }

    /// Whether the level is 1b: 9, and where the level has a flag 11 with it.
    fn is_1b(self) -> bool {
        self.level_idc == 9
            || (self.has_level_flag() && (self.level_idc == 11 && self.profile_iop >> 4 & 1 == 1))
    }

    /// Whether 9 stands for level 1b where the level has a flag: the standard names it so of the other
    /// profiles alone (Rec. ITU-T H.264, A.3.1 and A.3.2).
    pub(crate) fn is_1b_without_flag(self) -> bool {
        self.has_level_flag() && self.level_idc == 9
    }

    /// Twice level_idc, by which levels are ordered; level 1b stands between 1 and 1.1.
    pub(crate) fn level_rank(self) -> u16 {
        if self.is_1b() {
            21
        } else {
            2 * u16::from(self.level_idc)
        }
    }

    /// Whether the standard has the profile_idc (Rec. ITU-T H.264, Annexes A and G to J).
    pub(crate) fn has_profile(self) -> bool {
        matches!(self.profile_idc, 66 | 77 | 88 | 100 | 110 | 122 | 244 | 44)
            || matches!(
                self.profile_idc,
                83 | 86 | 118 | 128 | 134 | 135 | 138 | 139
            )
    }

    /// The sub-profile that table 5 of RFC 6184 has.
    fn sub_profile(self) -> Option<H264Profile> {
        match H264ProfileIdc::try_from(self.profile_idc) {
            Ok(idc) => profile_of(idc, self.profile_flags()),
            Err(_) => None,
        }
    }

    /// Whether two say one profile: by the same bytes, or by those of one sub-profile.
    fn same_profile(self, other: Self) -> bool {
        (self.profile_idc == other.profile_idc && self.profile_flags() == other.profile_flags())
            || same_sub_profile(self.sub_profile(), other.sub_profile())
    }

    /// Whether an end of a profile takes this one, which is offered.
    pub(crate) fn is_taken(self, rules: AnswerRules, own: Self) -> bool {
        self.same_profile(own)
            || (rules == AnswerRules::Webrtc
                && constrained_sub_profile(self.sub_profile(), own.sub_profile()))
    }

    /// The same profile at the level of another.
    fn at_level_of(self, other: Self) -> Self {
        let profile_iop = if self.has_level_flag() && other.is_1b() {
            self.profile_flags() + 16
        } else {
            self.profile_flags()
        };
        let level_idc = match (other.is_1b(), self.has_level_flag()) {
            (true, true) => 11,
            (true, false) => 9,
            (false, _) => other.level_idc,
        };
        ProfileLevelId {
            profile_iop,
            level_idc,
            ..self
        }
    }
}

/// The level of three bytes as in `profile-level-id`: twice `level_idc`, and 21 for level 1b.
fn level_of_id(id: [u8; 3]) -> u64 {
    let [profile_idc, profile_iop, level_idc] = id;
    let id = ProfileLevelId {
        profile_idc,
        profile_iop,
        level_idc,
    };
    u64::from(id.level_rank())
}

/// The parameter sets of a level among those of `sprop-level-parameter-sets`, the level as
/// [`AgreedStream`](crate::proved::h26x_answers::AgreedStream) has it: the first of that level (RFC 6184, section 8.1).
pub fn sets_of_level(levels: &[LevelSets], level: u64) -> Option<&LevelSets> {
    levels
        .iter()
        .find(|it| level_of_id(it.profile_level_id) == level)
}

/// The profile that a profile_idc and its flags have in table 5 of RFC 6184.
fn profile_of(idc: H264ProfileIdc, flags: u8) -> Option<H264Profile> {
    match H264ProfileLevel::new(idc, flags, H264LevelIdc::Level1) {
        Some(known) => Some(known.profile()),
        None => None,
    }
}

/// Whether two sub-profiles are known, and one.
fn same_sub_profile(a: Option<H264Profile>, b: Option<H264Profile>) -> bool {
    match (a, b) {
        (Some(a), Some(b)) => a as u8 == b as u8,
        _ => false,
    }
}

/// Whether two sub-profiles are known, and the first is the constrained one of the second.
fn constrained_sub_profile(a: Option<H264Profile>, b: Option<H264Profile>) -> bool {
    match (a, b) {
        (Some(a), Some(b)) => is_constrained_of(a, b),
        _ => false,
    }
}

/// Whether a profile is the constrained one of another.
fn is_constrained_of(a: H264Profile, b: H264Profile) -> bool {
    match a {
        H264Profile::ConstrainedBaseline => matches!(b, H264Profile::Baseline),
        H264Profile::ConstrainedHigh => matches!(b, H264Profile::High),
        _ => false,
    }
}

/// The level that the two bytes of a `max-recv-level` say, as `level_rank`.
pub(crate) fn recv_rank(text: &[u8]) -> u16 {
    match <[u8; 2] as FromHex>::from_hex(text) {
        Ok(bytes) => flagged_rank(bytes[0] >> 4 & 1, bytes[1]),
        Err(_) => 0,
    }
}

/// The level of a `max-recv-level`, by bit 4 of its first byte and its second one.
fn flagged_rank(flag: u8, level_idc: u8) -> u16 {
    if (level_idc == 11 && flag == 1) || (level_idc == 9 && flag == 0) {
        21
    } else {
        2 * u16::from(level_idc)
    }
}

/// Whether a flag is 1.
pub(crate) fn is_on(it: &H264Parameters, parameter: H264Parameter) -> bool {
    same_number(it.number_or_default(parameter), Some(1))
}

/// The text of a `profile-level-id`, or what is said where there is none.
fn id_text(rules: AnswerRules, it: &H264Parameters) -> Option<&[u8]> {
    match rules {
        AnswerRules::Rfc => it.value_or_default(H264Parameter::ProfileLevelId),
        AnswerRules::Webrtc => match it.value(H264Parameter::ProfileLevelId) {
            Some(text) => Some(text),
            None => Some(b"42e01f"),
        },
    }
}

/// The bytes of a `profile-level-id`, or those that are said where there is none.
pub(crate) fn id_of(rules: AnswerRules, it: &H264Parameters) -> Option<ProfileLevelId> {
    ProfileLevelId::read(id_text(rules, it)?)
}

/// The highest level that an end receives, as `level_rank`.
pub(crate) fn highest_rank(it: &H264Parameters, id: ProfileLevelId) -> u16 {
    match it.value(H264Parameter::MaxRecvLevel) {
        Some(text) => id.level_rank().max(recv_rank(text)),
        None => id.level_rank(),
    }
}

/// Whether units are interleaved.
pub(crate) fn is_interleaved(it: &H264Parameters) -> bool {
    same_number(
        it.number_or_default(H264Parameter::PacketizationMode),
        Some(2),
    )
}

/// Whether what one sends is what another can put in order.
pub(crate) fn can_deinterleave(sender: &H264Parameters, receiver: &H264Parameters) -> bool {
    let need = sender.number_or_default(H264Parameter::SpropDeintBufReq);
    let room = receiver.number_or_default(H264Parameter::DeintBufCap);
    let depth = sender.value(H264Parameter::SpropInterleavingDepth);
    depth.is_some() && holds(need, room)
}

/// Whether each end can put in order what the other sends.
fn can_order(offered: &H264Parameters, own: &H264Parameters) -> bool {
    !is_interleaved(offered) || (can_deinterleave(offered, own) && can_deinterleave(own, offered))
}

/// Whether both ends allow a level for each direction.
pub(crate) fn both_asymmetric(offered: &H264Parameters, own: &H264Parameters) -> bool {
    is_on(offered, H264Parameter::LevelAsymmetryAllowed)
        && is_on(own, H264Parameter::LevelAsymmetryAllowed)
}

/// Whose level the answer has: our own, where each direction has its own, and else the lower one.
fn answer_level(asymmetric: bool, a: ProfileLevelId, b: ProfileLevelId) -> ProfileLevelId {
    if asymmetric || b.level_rank() < a.level_rank() {
        b
    } else {
        a
    }
}

/// The value of `profile-level-id` in the answer: the offer's, or its profile at another level.
fn answer_id(
    offered: &H264Parameters,
    a: ProfileLevelId,
    level: ProfileLevelId,
) -> Result<Option<Vec<u8>>, AllocError> {
    if a.level_rank() == level.level_rank() {
        return copy_of(offered.value(H264Parameter::ProfileLevelId));
    }
    Ok(Some(a.at_level_of(level).write()?))
}

/// The level to use from the answerer to the offerer.
fn rank_back(
    offered: &H264Parameters,
    asymmetric: bool,
    a: ProfileLevelId,
    level: ProfileLevelId,
) -> u16 {
    if asymmetric {
        highest_rank(offered, a)
    } else {
        level.level_rank()
    }
}

/// Whether the answer has parameter sets of its level.
fn may_tell_sets(offered: &H264Parameters, back: u16, answer: u16, own: u16) -> bool {
    !is_on(offered, H264Parameter::InBandParameterSets) && (back == answer && answer == own)
}

/// Whether the answer has parameter sets of other levels.
fn with_level_sets(offered: &H264Parameters, back: u16, answer: u16) -> bool {
    !is_on(offered, H264Parameter::InBandParameterSets)
        && (is_on(offered, H264Parameter::UseLevelSrcParameterSets) && !(back == answer))
}

/// The terms at a level.
fn terms_at(
    offered: &H264Parameters,
    asymmetric: bool,
    a: ProfileLevelId,
    b: ProfileLevelId,
    level: ProfileLevelId,
) -> Result<Terms, AllocError> {
    let back = rank_back(offered, asymmetric, a, level);
    let is_ours = a.same_profile(b);
    Ok(Terms {
        level: answer_id(offered, a, level)?,
        highest: None,
        asymmetric,
        reorders: is_interleaved(offered),
        sets: is_ours && may_tell_sets(offered, back, level.level_rank(), b.level_rank()),
        level_sets: is_ours && with_level_sets(offered, back, level.level_rank()),
    })
}

/// The terms of two formats of one packetization mode, if they have some.
fn terms(
    rules: AnswerRules,
    offered: &H264Parameters,
    own: &H264Parameters,
) -> Result<Option<Terms>, AllocError> {
    let (Some(a), Some(b)) = (id_of(rules, offered), id_of(rules, own)) else {
        return Ok(None);
    };
    if !(a.is_taken(rules, b) && can_order(offered, own)) {
        return Ok(None);
    }
    let asymmetric = both_asymmetric(offered, own);
    let level = answer_level(asymmetric, a, b);
    Ok(Some(terms_at(offered, asymmetric, a, b, level)?))
}

/// The same in multicast, at the offered level, which ours isn't below.
fn multicast_terms(
    rules: AnswerRules,
    offered: &H264Parameters,
    own: &H264Parameters,
) -> Result<Option<Terms>, AllocError> {
    let (Some(a), Some(b)) = (id_of(rules, offered), id_of(rules, own)) else {
        return Ok(None);
    };
    let keeps = a.level_rank() <= b.level_rank();
    if !(keeps && (a.is_taken(rules, b) && can_order(offered, own))) {
        return Ok(None);
    }
    Ok(Some(terms_at(offered, false, a, b, a)?))
}

impl CodecRules for H264Parameter {
    fn roles() -> &'static [Role] {
        &ROLES
    }

    fn usages() -> &'static [Usage] {
        &USAGES
    }

    fn terms(
        rules: AnswerRules,
        offered: &H264Parameters,
        own: &H264Parameters,
    ) -> Result<Option<Terms>, AllocError> {
        terms(rules, offered, own)
    }

    fn multicast_terms(
        rules: AnswerRules,
        offered: &H264Parameters,
        own: &H264Parameters,
    ) -> Result<Option<Terms>, AllocError> {
        multicast_terms(rules, offered, own)
    }

    fn is_known(rules: AnswerRules, it: &H264Parameters) -> bool {
        own_h264::is_known(rules, it)
    }

    fn fault(rules: AnswerRules, own: &H264Parameters) -> Option<FormatFault> {
        own_h264::fault(rules, own)
    }

    fn reorders(it: &H264Parameters) -> bool {
        is_interleaved(it)
    }
}
