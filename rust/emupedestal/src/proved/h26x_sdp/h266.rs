// Made from crates/h26x_sdp/src/h266.rt by tools/to-rust.

//! The format parameters of H.266 (RFC 9328, sections 7.1 and 7.2).

use crate::proved::h26x_fmtp::kind::{BITS_8, BITS_15, BITS_32, BITS_64, FLAG, SUB_LAYER};
use crate::proved::h26x_fmtp::unit_types::{H266_DCI, H266_PPS, H266_SEI, H266_SPS, H266_VPS};
use crate::proved::h26x_fmtp::{Kind, ParameterRow};
use crate::proved::h26x_sdp::codec::{CodecParameter, CodecParameters};
use crate::proved::h26x_sdp::constraints::InteropConstraints;
use crate::proved::h26x_sdp::error::ConstraintsError;

/// A format parameter of H.266, in the order in which they are written (RFC 9328, sections 7.1
/// and 7.2).
#[non_exhaustive]
#[derive(Debug, Clone, Copy, PartialEq, Eq, PartialOrd, Ord, Hash)]
pub enum H266Parameter {
    /// `profile-id`: general_profile_idc. Where it's absent 1: Main 10.
    ProfileId,
    /// `tier-flag`: general_tier_flag: 0 Main tier, 1 High tier. Where it's absent 0.
    TierFlag,
    /// `sub-profile-id`: the sub-profiles in base64 without padding, with `,` between them.
    SubProfileId,
    /// `interop-constraints`: the constraints of the stream in base64: frames alone, multilayer and
    /// general_constraints_info( ). Where it's absent gA==: frames alone, one layer, and no general
    /// ones.
    InteropConstraints,
    /// `level-id`: general_level_idc, 16 times the level's major number and three times its minor
    /// one. Where it's absent 51: level 3.1.
    LevelId,
    /// `sprop-sublayer-id`: the highest TID of the stream. Where it's absent 6.
    SpropSublayerId,
    /// `sprop-ols-id`: the output layer set that the stream applies to, up to 256. Where it's
    /// absent, TargetOlsIdx (Rec. ITU-T H.266, section 8.1.1).
    SpropOlsId,
    /// `recv-sublayer-id`: the highest TID that a receiver chooses. Where it's absent, the offer's
    /// `sprop-sublayer-id`.
    RecvSublayerId,
    /// `recv-ols-id`: the output layer set that a receiver chooses, up to 256. Where it's absent,
    /// the offer's `sprop-ols-id`.
    RecvOlsId,
    /// `max-recv-level-id`: the highest level that is received, as in `level-id`. Where it's
    /// absent, `level-id`.
    MaxRecvLevelId,
    /// `sprop-dci`: the unit of decoding capability information in base64.
    SpropDci,
    /// `sprop-vps`: video parameter sets in base64, with `,` between them.
    SpropVps,
    /// `sprop-sps`: sequence parameter sets in base64, with `,` between them.
    SpropSps,
    /// `sprop-pps`: picture parameter sets in base64, with `,` between them.
    SpropPps,
    /// `sprop-sei`: SEI messages in base64, with `,` between them.
    SpropSei,
    /// `max-lsr`: the most luma samples in a second: one to 16 times the level's. Where it's
    /// absent, the level's.
    MaxLsr,
    /// `max-fps`: the highest picture rate, in pictures in 100 seconds.
    MaxFps,
    /// `sprop-max-don-diff`: the largest difference of the decoding order numbers of a unit and of
    /// one that is sent behind it, up to 32767. Where it's absent 0, and packets bear no such
    /// numbers.
    SpropMaxDonDiff,
    /// `sprop-depack-buf-bytes`: the size of the depacketization buffer that the stream needs, in
    /// bytes. Where it's absent 0; present and above 0 where `sprop-max-don-diff` is.
    SpropDepackBufBytes,
    /// `depack-buf-cap`: the depacketization buffer that a receiver has, in bytes. Where it's
    /// absent 4294967295.
    DepackBufCap,
}

impl H266Parameter {
    /// All of them, in their order.
    pub const ALL: [Self; 20] = [
        Self::ProfileId,
        Self::TierFlag,
        Self::SubProfileId,
        Self::InteropConstraints,
        Self::LevelId,
        Self::SpropSublayerId,
        Self::SpropOlsId,
        Self::RecvSublayerId,
        Self::RecvOlsId,
        Self::MaxRecvLevelId,
        Self::SpropDci,
        Self::SpropVps,
        Self::SpropSps,
        Self::SpropPps,
        Self::SpropSei,
        Self::MaxLsr,
        Self::MaxFps,
        Self::SpropMaxDonDiff,
        Self::SpropDepackBufBytes,
        Self::DepackBufCap,
    ];
}

/// The parameters of the table.
static ROWS: [ParameterRow; 20] = [
    ParameterRow {
        name: b"profile-id",
        kind: Kind::Number {
            least: 0,
            most: 127,
        },
        default: Some(b"1"),
    },
    ParameterRow {
        name: b"tier-flag",
        kind: FLAG,
        default: Some(b"0"),
    },
    ParameterRow {
        name: b"sub-profile-id",
        kind: Kind::Text,
        default: None,
    },
    ParameterRow {
        name: b"interop-constraints",
        kind: Kind::Text,
        default: Some(b"gA=="),
    },
    ParameterRow {
        name: b"level-id",
        kind: BITS_8,
        default: Some(b"51"),
    },
    ParameterRow {
        name: b"sprop-sublayer-id",
        kind: SUB_LAYER,
        default: Some(b"6"),
    },
    ParameterRow {
        name: b"sprop-ols-id",
        kind: Kind::Number {
            least: 0,
            most: 256,
        },
        default: None,
    },
    ParameterRow {
        name: b"recv-sublayer-id",
        kind: SUB_LAYER,
        default: None,
    },
    ParameterRow {
        name: b"recv-ols-id",
        kind: Kind::Number {
            least: 0,
            most: 256,
        },
        default: None,
    },
    ParameterRow {
        name: b"max-recv-level-id",
        kind: BITS_8,
        default: None,
    },
    ParameterRow {
        name: b"sprop-dci",
        kind: Kind::Units(H266_DCI),
        default: None,
    },
    ParameterRow {
        name: b"sprop-vps",
        kind: Kind::Units(H266_VPS),
        default: None,
    },
    ParameterRow {
        name: b"sprop-sps",
        kind: Kind::Units(H266_SPS),
        default: None,
    },
    ParameterRow {
        name: b"sprop-pps",
        kind: Kind::Units(H266_PPS),
        default: None,
    },
    ParameterRow {
        name: b"sprop-sei",
        kind: Kind::Units(H266_SEI),
        default: None,
    },
    ParameterRow {
        name: b"max-lsr",
        kind: BITS_64,
        default: None,
    },
    ParameterRow {
        name: b"max-fps",
        kind: BITS_64,
        default: None,
    },
    ParameterRow {
        name: b"sprop-max-don-diff",
        kind: BITS_15,
        default: Some(b"0"),
    },
    ParameterRow {
        name: b"sprop-depack-buf-bytes",
        kind: BITS_32,
        default: Some(b"0"),
    },
    ParameterRow {
        name: b"depack-buf-cap",
        kind: Kind::Number {
            least: 1,
            most: 4294967295,
        },
        default: Some(b"4294967295"),
    },
];

impl CodecParameter for H266Parameter {
    fn rows() -> &'static [ParameterRow] {
        &ROWS
    }

    fn place(self) -> usize {
        self as usize
    }
}

/// A text that may be absent.
fn text_of(text: Option<&[u8]>) -> &[u8] {
    match text {
        Some(text) => text,
        None => &[],
    }
}

impl CodecParameters<H266Parameter> {
    /// What packetizers and receivers are configured for: `sprop-max-don-diff`, or 0 where it's
    /// absent. Where it is over 0, units bear decoding order numbers (RFC 9328, section 7.2).
    pub fn max_don_diff(&self) -> Option<u32> {
        u32::try_from(self.number_or_default(H266Parameter::SpropMaxDonDiff)?).ok()
    }

    /// The constraints that `interop-constraints` says, or where it's absent frames alone, one layer
    /// and no general ones.
    pub fn interop_constraints(&self) -> Result<InteropConstraints, ConstraintsError> {
        let said = self.value_or_default(H266Parameter::InteropConstraints);
        InteropConstraints::read(text_of(said))
    }
}

/// The format parameters of H.266: what an `a=fmtp` line says behind the payload type.
pub type H266Parameters = CodecParameters<H266Parameter>;
