// Made from crates/h26x_answers/src/answer/h266.rt by tools/to-rust.

//! Answers to offers of H.266 (RFC 9328, section 7.3.2).

use crate::proved::h26x_answers::answer::by_level::{
    LevelParameters, is_positive, keeps_level, terms_by_level,
};
use crate::proved::h26x_answers::answer::{
    AnswerRules, CodecRules, Role, Terms, own_h266, same_if_given, same_number,
};
use crate::proved::h26x_answers::direction::Usage;
use crate::proved::h26x_answers::fault::FormatFault;
use crate::proved::h26x_fmtp::Kind;
use crate::proved::h26x_fmtp::unit_types::H266_VPS;
use crate::proved::h26x_sdp::{H266Parameter, H266Parameters};
use crate::support::AllocError;

/// What each parameter is, in the order of the table.
static ROLES: [Role; 20] = [
    // profile-id, tier-flag, sub-profile-id and interop-constraints
    Role::Configuration,
    Role::Configuration,
    Role::Configuration,
    Role::Configuration,
    // level-id
    Role::Level,
    // sprop-sublayer-id, sprop-ols-id, recv-sublayer-id and recv-ols-id
    Role::Own,
    Role::Own,
    Role::OperationPoint,
    Role::OperationPoint,
    // max-recv-level-id
    Role::HighestLevel,
    // sprop-dci, sprop-vps, sprop-sps, sprop-pps and sprop-sei
    Role::Sets,
    Role::Sets,
    Role::Sets,
    Role::Sets,
    Role::Own,
    // max-lsr and max-fps
    Role::Own,
    Role::Own,
    // sprop-max-don-diff, sprop-depack-buf-bytes and depack-buf-cap
    Role::Own,
    Role::Own,
    Role::Own,
];

/// In which directions each parameter is usable, in the order of the table.
static USAGES: [Usage; 20] = [
    // profile-id, tier-flag, sub-profile-id and interop-constraints
    Usage::Always,
    Usage::Always,
    Usage::Always,
    Usage::Always,
    // level-id
    Usage::Always,
    // sprop-sublayer-id, sprop-ols-id, recv-sublayer-id and recv-ols-id
    Usage::Sending,
    Usage::Sending,
    Usage::Receiving,
    Usage::Receiving,
    // max-recv-level-id
    Usage::Receiving,
    // sprop-dci, sprop-vps, sprop-sps, sprop-pps and sprop-sei
    Usage::Sending,
    Usage::Sending,
    Usage::Sending,
    Usage::Sending,
    Usage::Sending,
    // max-lsr and max-fps
    Usage::Receiving,
    Usage::Receiving,
    // sprop-max-don-diff, sprop-depack-buf-bytes and depack-buf-cap
    Usage::Sending,
    Usage::Sending,
    Usage::Receiving,
];

/// By which parameters levels and buffers are told: no parameter says how many units are to be held, so
/// that of the bytes stands for it.
pub(crate) const BY: LevelParameters<H266Parameter> = LevelParameters {
    level: H266Parameter::LevelId,
    highest: H266Parameter::MaxRecvLevelId,
    difference: H266Parameter::SpropMaxDonDiff,
    units: H266Parameter::SpropDepackBufBytes,
    need: H266Parameter::SpropDepackBufBytes,
    room: H266Parameter::DepackBufCap,
};

/// Whether the profile has layers.
fn has_layers(it: &H266Parameters) -> bool {
    let profile = it.number_or_default(H266Parameter::ProfileId);
    (same_number(profile, Some(17)) || same_number(profile, Some(49)))
        || (same_number(profile, Some(81)) || same_number(profile, Some(113)))
}

/// Whether the answer has the offer's `sprop-vps`, where it's configuration too: of a profile with
/// layers.
fn keeps_vps(offered: &H266Parameters, own: &H266Parameters, terms: &Terms) -> bool {
    let ours = if terms.sets {
        own.value(H266Parameter::SpropVps)
    } else {
        None
    };
    !has_layers(offered)
        || same_if_given(
            Kind::Units(H266_VPS),
            offered.value(H266Parameter::SpropVps),
            ours,
        )
}

/// The terms of two formats of one configuration.
fn terms(offered: &H266Parameters, own: &H266Parameters) -> Result<Option<Terms>, AllocError> {
    match terms_by_level(&BY, offered, own)? {
        Some(terms) if keeps_vps(offered, own, &terms) => Ok(Some(terms)),
        _ => Ok(None),
    }
}

/// The same in multicast, at the offered level, which ours isn't below.
fn multicast_terms(
    offered: &H266Parameters,
    own: &H266Parameters,
) -> Result<Option<Terms>, AllocError> {
    if !keeps_level(&BY, offered, own) {
        return Ok(None);
    }
    terms(offered, own)
}

impl CodecRules for H266Parameter {
    fn roles() -> &'static [Role] {
        &ROLES
    }

    fn usages() -> &'static [Usage] {
        &USAGES
    }

    fn terms(
        _rules: AnswerRules,
        offered: &H266Parameters,
        own: &H266Parameters,
    ) -> Result<Option<Terms>, AllocError> {
        terms(offered, own)
    }

    fn multicast_terms(
        _rules: AnswerRules,
        offered: &H266Parameters,
        own: &H266Parameters,
    ) -> Result<Option<Terms>, AllocError> {
        multicast_terms(offered, own)
    }

    fn is_known(_rules: AnswerRules, it: &H266Parameters) -> bool {
        own_h266::is_known(it)
    }

    fn fault(_rules: AnswerRules, own: &H266Parameters) -> Option<FormatFault> {
        own_h266::fault(own)
    }

    fn reorders(it: &H266Parameters) -> bool {
        is_positive(it.number_or_default(H266Parameter::SpropMaxDonDiff))
    }
}
