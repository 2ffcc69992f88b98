// Made from crates/h26x_sdp/src/h265.rt by tools/to-rust.

//! The format parameters of H.265 (RFC 7798, section 7.1).

use crate::proved::h26x_fmtp::kind::{BITS_8, BITS_15, BITS_32, BITS_64, FLAG, SUB_LAYER};
use crate::proved::h26x_fmtp::unit_types::{H265_PPS, H265_SEI, H265_SPS, H265_VPS};
use crate::proved::h26x_fmtp::{Kind, ParameterRow};
use crate::proved::h26x_sdp::capability_points::{CapabilityPoint, read_capability_points};
use crate::proved::h26x_sdp::codec::{CodecParameter, CodecParameters};
use crate::proved::h26x_sdp::error::CapabilityPointsError;
use crate::support::hex::FromHex;
use alloc::vec::Vec;

/// A format parameter of H.265, in the order in which they are written (RFC 7798, section 7.1).
#[non_exhaustive]
#[derive(Debug, Clone, Copy, PartialEq, Eq, PartialOrd, Ord, Hash)]
pub enum H265Parameter {
    /// `profile-space`: general_profile_space. Where it's absent 0.
    ProfileSpace,
    /// `profile-id`: general_profile_idc. Where it's absent 1: Main.
    ProfileId,
    /// `tier-flag`: general_tier_flag: 0 Main tier, 1 High tier. Where it's absent 0.
    TierFlag,
    /// `level-id`: general_level_idc, 30 times the level. Where it's absent 93: level 3.1.
    LevelId,
    /// `interop-constraints`: the 48 flags of constraints behind the compatibility flags, by
    /// twelve digits. Where it's absent B00000000000: progressive, not packed, frames alone.
    InteropConstraints,
    /// `profile-compatibility-indicator`: the 32 flags of compatible profiles, by eight digits, the
    /// flag of profile 0 first. Where it's absent, the flag of `profile-id` alone.
    ProfileCompatibilityIndicator,
    /// `sprop-sub-layer-id`: the highest TID of the stream. Where it's absent 6.
    SpropSubLayerId,
    /// `recv-sub-layer-id`: the highest TID that a receiver chooses. Where it's absent, the offer's
    /// `sprop-sub-layer-id`.
    RecvSubLayerId,
    /// `max-recv-level-id`: the highest level that is received, 30 times the level. Where it's
    /// absent, `level-id`.
    MaxRecvLevelId,
    /// `tx-mode`: `SRST`, `MRST` or `MRMT`, in either case: one or more RTP streams, over one or more
    /// transports. Where it's absent `SRST`.
    TxMode,
    /// `sprop-vps`: video parameter sets in base64, with `,` between them.
    SpropVps,
    /// `sprop-sps`: sequence parameter sets in base64, with `,` between them.
    SpropSps,
    /// `sprop-pps`: picture parameter sets in base64, with `,` between them.
    SpropPps,
    /// `sprop-sei`: SEI messages in base64, with `,` between them.
    SpropSei,
    /// `max-lsr`: the most luma samples in a second: one to 16 times the level's. Where it's
    /// absent, the level's.
    MaxLsr,
    /// `max-lps`: the most luma samples of a picture: one to 16 times the level's. Where it's
    /// absent, the level's.
    MaxLps,
    /// `max-cpb`: the largest coded picture buffer, in units of CpbBrVclFactor or CpbBrNalFactor
    /// bits: one to 16 times the level's. Where it's absent, the level's, times `max-br` over the
    /// level's where that is given.
    MaxCpb,
    /// `max-dpb`: the largest decoded picture buffer, in pictures of the level's largest size: 1
    /// to 16, and no fewer than MaxDpbPicBuf, which is 6. Where it's absent 6.
    MaxDpb,
    /// `max-br`: the highest bit rate, in units of CpbBrVclFactor or CpbBrNalFactor bits a
    /// second: one to 16 times the level's. Where it's absent, the level's.
    MaxBr,
    /// `max-tr`: the most rows of tiles: one to 16 times the level's. Where it's absent, the
    /// level's.
    MaxTr,
    /// `max-tc`: the most columns of tiles: one to 16 times the level's. Where it's absent, the
    /// level's.
    MaxTc,
    /// `max-fps`: the highest picture rate, in pictures in 100 seconds.
    MaxFps,
    /// `sprop-max-don-diff`: the largest difference of the decoding order numbers of a unit and of
    /// one that is sent behind it, up to 32767. Where it's absent 0, and packets bear no such
    /// numbers.
    SpropMaxDonDiff,
    /// `sprop-depack-buf-nalus`: how many units precede one that they follow in decoding order, at
    /// most. Where it's absent 0; present and above 0 where `sprop-max-don-diff` is.
    SpropDepackBufNalus,
    /// `sprop-depack-buf-bytes`: the size of the depacketization buffer that the stream needs, in
    /// bytes. Where it's absent 0; present and above 0 where `sprop-max-don-diff` is.
    SpropDepackBufBytes,
    /// `depack-buf-cap`: the depacketization buffer that a receiver has, in bytes. Where it's
    /// absent 4294967295.
    DepackBufCap,
    /// `sprop-segmentation-id`: the tools for parallel decoding that the stream uses: 0 isn't said,
    /// 1 slices, 2 tiles, 3 wavefronts. Where it's absent 0.
    SpropSegmentationId,
    /// `sprop-spatial-segmentation-idc`: min_spatial_segmentation_idc, up to 4095, by hexadecimal
    /// digits. Where it's absent, it isn't said.
    SpropSpatialSegmentationIdc,
    /// `dec-parallel-cap`: capabilities for parallel decoding, in braces, with `,` between them, which
    /// `capability_points` looks into.
    DecParallelCap,
    /// `include-dph`: the hash types of decoded pictures that are wanted or there, with `,`
    /// between them, each up to 255. Where it's absent, none.
    IncludeDph,
}

impl H265Parameter {
    /// All of them, in their order.
    pub const ALL: [Self; 30] = [
        Self::ProfileSpace,
        Self::ProfileId,
        Self::TierFlag,
        Self::LevelId,
        Self::InteropConstraints,
        Self::ProfileCompatibilityIndicator,
        Self::SpropSubLayerId,
        Self::RecvSubLayerId,
        Self::MaxRecvLevelId,
        Self::TxMode,
        Self::SpropVps,
        Self::SpropSps,
        Self::SpropPps,
        Self::SpropSei,
        Self::MaxLsr,
        Self::MaxLps,
        Self::MaxCpb,
        Self::MaxDpb,
        Self::MaxBr,
        Self::MaxTr,
        Self::MaxTc,
        Self::MaxFps,
        Self::SpropMaxDonDiff,
        Self::SpropDepackBufNalus,
        Self::SpropDepackBufBytes,
        Self::DepackBufCap,
        Self::SpropSegmentationId,
        Self::SpropSpatialSegmentationIdc,
        Self::DecParallelCap,
        Self::IncludeDph,
    ];
}

/// The parameters of the table.
static ROWS: [ParameterRow; 30] = [
    ParameterRow {
        name: b"profile-space",
        kind: Kind::Number { least: 0, most: 3 },
        default: Some(b"0"),
    },
    ParameterRow {
        name: b"profile-id",
        kind: Kind::Number { least: 0, most: 31 },
        default: Some(b"1"),
    },
    ParameterRow {
        name: b"tier-flag",
        kind: FLAG,
        default: Some(b"0"),
    },
    ParameterRow {
        name: b"level-id",
        kind: BITS_8,
        default: Some(b"93"),
    },
    ParameterRow {
        name: b"interop-constraints",
        kind: Kind::Hexadecimal { bytes: 6 },
        default: Some(b"B00000000000"),
    },
    ParameterRow {
        name: b"profile-compatibility-indicator",
        kind: Kind::Hexadecimal { bytes: 4 },
        default: None,
    },
    ParameterRow {
        name: b"sprop-sub-layer-id",
        kind: SUB_LAYER,
        default: Some(b"6"),
    },
    ParameterRow {
        name: b"recv-sub-layer-id",
        kind: SUB_LAYER,
        default: None,
    },
    ParameterRow {
        name: b"max-recv-level-id",
        kind: BITS_8,
        default: None,
    },
    ParameterRow {
        name: b"tx-mode",
        kind: Kind::TxMode,
        default: Some(b"SRST"),
    },
    ParameterRow {
        name: b"sprop-vps",
        kind: Kind::Units(H265_VPS),
        default: None,
    },
    ParameterRow {
        name: b"sprop-sps",
        kind: Kind::Units(H265_SPS),
        default: None,
    },
    ParameterRow {
        name: b"sprop-pps",
        kind: Kind::Units(H265_PPS),
        default: None,
    },
    ParameterRow {
        name: b"sprop-sei",
        kind: Kind::Units(H265_SEI),
        default: None,
    },
    ParameterRow {
        name: b"max-lsr",
        kind: BITS_64,
        default: None,
    },
    ParameterRow {
        name: b"max-lps",
        kind: BITS_32,
        default: None,
    },
    ParameterRow {
        name: b"max-cpb",
        kind: BITS_64,
        default: None,
    },
    ParameterRow {
        name: b"max-dpb",
        kind: Kind::Number { least: 1, most: 16 },
        default: Some(b"6"),
    },
    ParameterRow {
        name: b"max-br",
        kind: BITS_64,
        default: None,
    },
    ParameterRow {
        name: b"max-tr",
        kind: BITS_64,
        default: None,
    },
    ParameterRow {
        name: b"max-tc",
        kind: BITS_64,
        default: None,
    },
    ParameterRow {
        name: b"max-fps",
        kind: BITS_64,
        default: None,
    },
    ParameterRow {
        name: b"sprop-max-don-diff",
        kind: BITS_15,
        default: Some(b"0"),
    },
    ParameterRow {
        name: b"sprop-depack-buf-nalus",
        kind: BITS_15,
        default: Some(b"0"),
    },
    ParameterRow {
        name: b"sprop-depack-buf-bytes",
        kind: BITS_32,
        default: Some(b"0"),
    },
    ParameterRow {
        name: b"depack-buf-cap",
        kind: Kind::Number {
            least: 1,
            most: 4294967295,
        },
        default: Some(b"4294967295"),
    },
    ParameterRow {
        name: b"sprop-segmentation-id",
        kind: Kind::Number { least: 0, most: 3 },
        default: Some(b"0"),
    },
    ParameterRow {
        name: b"sprop-spatial-segmentation-idc",
        kind: Kind::HexadecimalNumber { most: 4095 },
        default: None,
    },
    ParameterRow {
        name: b"dec-parallel-cap",
        kind: Kind::Text,
        default: None,
    },
    ParameterRow {
        name: b"include-dph",
        kind: Kind::Text,
        default: None,
    },
];

impl CodecParameter for H265Parameter {
    fn rows() -> &'static [ParameterRow] {
        &ROWS
    }

    fn place(self) -> usize {
        self as usize
    }
}

impl CodecParameters<H265Parameter> {
    /// What packetizers and receivers are configured for: `sprop-max-don-diff`, or 0 where it's
    /// absent. Where it is over 0, units bear decoding order numbers (RFC 7798, section 7.1).
    pub fn max_don_diff(&self) -> Option<u32> {
        u32::try_from(self.number_or_default(H265Parameter::SpropMaxDonDiff)?).ok()
    }

    /// The 48 flags of constraints, six bytes, the first flag the highest bit; where they are absent,
    /// those of progressive pictures that aren't packed, each a frame.
    pub fn interop_constraints(&self) -> Option<[u8; 6]> {
        let text = self.value_or_default(H265Parameter::InteropConstraints)?;
        <[u8; 6] as FromHex>::from_hex(text).ok()
    }

    /// What a receiver can do where pictures are coded for parallel decoding, `dec-parallel-cap`;
    /// `None` where it's absent.
    pub fn capability_points(&self) -> Result<Option<Vec<CapabilityPoint>>, CapabilityPointsError> {
        let Some(text) = self.value(H265Parameter::DecParallelCap) else {
            return Ok(None);
        };
        match read_capability_points(text) {
            Ok(points) => Ok(Some(points)),
            Err(error) => Err(error),
        }
    }

    /// A capability point with the limits that it leaves out: `tier-flag`, `max-recv-level-id`,
    /// `max-lsr`, `max-lps` and `max-br` of these parameters (RFC 7798, section 7.1).
    pub fn inferred(&self, point: CapabilityPoint) -> CapabilityPoint {
        let highest = match self.number(H265Parameter::MaxRecvLevelId) {
            Some(level) => Some(level),
            None => self.number_or_default(H265Parameter::LevelId),
        };
        CapabilityPoint {
            tool: point.tool,
            spatial_segmentation: point.spatial_segmentation,
            tier_flag: point
                .tier_flag
                .or(self.number_or_default(H265Parameter::TierFlag)),
            level_id: point.level_id.or(highest),
            max_lsr: point.max_lsr.or(self.number(H265Parameter::MaxLsr)),
            max_lps: point.max_lps.or(self.number(H265Parameter::MaxLps)),
            max_br: point.max_br.or(self.number(H265Parameter::MaxBr)),
        }
    }
}

/// The format parameters of H.265: what an `a=fmtp` line says behind the payload type.
pub type H265Parameters = CodecParameters<H265Parameter>;
