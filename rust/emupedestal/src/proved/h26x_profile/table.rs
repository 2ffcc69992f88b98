// Made from crates/h26x_profile/src/table.rt by tools/to-rust.

//! The table of the profiles of H.264.

use crate::proved::h26x_profile::bit_pattern::BitPattern;
use crate::proved::h26x_profile::h264::{H264LevelIdc, H264Profile, H264ProfileIdc};

/// A profile, and the profile_idc and the pattern of constraint flags that name it.
#[derive(Clone, Copy)]
struct ProfileRow {
    profile: H264Profile,
    idc: H264ProfileIdc,
    flags: BitPattern,
}

impl ProfileRow {
    /// Whether a profile_idc and the byte of constraint flags name the row's profile.
    fn names(&self, idc: H264ProfileIdc, flags: u8) -> bool {
        self.idc == idc && self.flags.matches(flags)
    }
}

/// The profiles, as the standard lists them (RFC 6184, section 8.1, table 5).
const PROFILES: [ProfileRow; 16] = [
    ProfileRow {
        profile: H264Profile::ConstrainedBaseline,
        idc: H264ProfileIdc::X42,
        flags: BitPattern {
            places: *b"x1xx0000",
        },
    },
    ProfileRow {
        profile: H264Profile::ConstrainedBaseline,
        idc: H264ProfileIdc::X4D,
        flags: BitPattern {
            places: *b"1xxx0000",
        },
    },
    ProfileRow {
        profile: H264Profile::ConstrainedBaseline,
        idc: H264ProfileIdc::X58,
        flags: BitPattern {
            places: *b"11xx0000",
        },
    },
    ProfileRow {
        profile: H264Profile::Baseline,
        idc: H264ProfileIdc::X42,
        flags: BitPattern {
            places: *b"x0xx0000",
        },
    },
    ProfileRow {
        profile: H264Profile::Baseline,
        idc: H264ProfileIdc::X58,
        flags: BitPattern {
            places: *b"10xx0000",
        },
    },
    ProfileRow {
        profile: H264Profile::Main,
        idc: H264ProfileIdc::X4D,
        flags: BitPattern {
            places: *b"0x0x0000",
        },
    },
    ProfileRow {
        profile: H264Profile::Extended,
        idc: H264ProfileIdc::X58,
        flags: BitPattern {
            places: *b"00xx0000",
        },
    },
    ProfileRow {
        profile: H264Profile::High,
        idc: H264ProfileIdc::X64,
        flags: BitPattern {
            places: *b"00000000",
        },
    },
    ProfileRow {
        profile: H264Profile::ConstrainedHigh,
        idc: H264ProfileIdc::X64,
        flags: BitPattern {
            places: *b"00001100",
        },
    },
    ProfileRow {
        profile: H264Profile::High10,
        idc: H264ProfileIdc::X6E,
        flags: BitPattern {
            places: *b"00000000",
        },
    },
    ProfileRow {
        profile: H264Profile::High422,
        idc: H264ProfileIdc::X7A,
        flags: BitPattern {
            places: *b"00000000",
        },
    },
    ProfileRow {
        profile: H264Profile::High444Predictive,
        idc: H264ProfileIdc::XF4,
        flags: BitPattern {
            places: *b"00000000",
        },
    },
    ProfileRow {
        profile: H264Profile::High10Intra,
        idc: H264ProfileIdc::X6E,
        flags: BitPattern {
            places: *b"00010000",
        },
    },
    ProfileRow {
        profile: H264Profile::High422Intra,
        idc: H264ProfileIdc::X7A,
        flags: BitPattern {
            places: *b"00010000",
        },
    },
    ProfileRow {
        profile: H264Profile::High444Intra,
        idc: H264ProfileIdc::XF4,
        flags: BitPattern {
            places: *b"00010000",
        },
    },
    ProfileRow {
        profile: H264Profile::CAVLC444Intra,
        idc: H264ProfileIdc::X2C,
        flags: BitPattern {
            places: *b"00010000",
        },
    },
];

/// The first row whose profile a profile_idc and the byte of constraint flags name.
fn row_of(rows: &[ProfileRow], idc: H264ProfileIdc, flags: u8) -> Option<&ProfileRow> {
    rows.iter().find(|row| row.names(idc, flags))
}

/// The profile that a profile_idc and the byte of constraint flags name.
pub(crate) fn profile_of(idc: H264ProfileIdc, flags: u8) -> Option<H264Profile> {
    row_of(&PROFILES, idc, flags).map(|row| row.profile)
}

/// The level that three bytes name: level 1b by the id of level 1.1 with constraint_set3_flag, of a
/// profile_idc of Baseline, Main or Extended (RFC 6184, section 8.1), and else the level with the
/// id.
pub(crate) fn level_with(profile_idc: u8, flags: u8, level_id: u8) -> Option<H264LevelIdc> {
    if is_level_1b(profile_idc, flags, level_id) {
        Some(H264LevelIdc::Level1B)
    } else {
        H264LevelIdc::try_from(level_id).ok()
    }
}

/// Whether three bytes name level 1b: the profile_idc of Baseline, Main or Extended,
/// constraint_set3_flag, and the id of level 1.1 (RFC 6184, section 8.1).
fn is_level_1b(profile_idc: u8, flags: u8, level_id: u8) -> bool {
    matches!(profile_idc, 66 | 77 | 88) && level_id == 11 && flags >> 4 & 1 == 1
}
