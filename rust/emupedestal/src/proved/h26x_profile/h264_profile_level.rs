// Made from crates/h26x_profile/src/h264_profile_level.rt by tools/to-rust.

//! What a `profile-level-id` of H.264 says.

use crate::proved::h26x_profile::h264::{H264LevelIdc, H264Profile, H264ProfileIdc};
use crate::proved::h26x_profile::table;

/// The profile and level of an H.264 format in SDP (RFC 6184, section 8.1).
#[cfg_attr(feature = "serde", derive(serde::Serialize, serde::Deserialize))]
#[derive(Debug, Clone, Copy, PartialEq, Eq, Hash)]
pub struct H264ProfileLevel {
    profile: H264Profile,
    level: H264LevelIdc,
}

impl H264ProfileLevel {
    /// What stands where a format says nothing: Baseline at level 3.1, as str0m has it (RFC 6184,
    /// section 8.1, has level 1).
    pub const FALLBACK: Self = H264ProfileLevel {
        profile: H264Profile::Baseline,
        level: H264LevelIdc::Level3_1,
    };

    /// The profile that a profile_idc and the byte of constraint flags (profile_iop) name, at this
    /// level; `None` where no profile has them (RFC 6184, section 8.1, table 5).
    pub fn new(
        profile_idc: H264ProfileIdc,
        profile_iop: u8,
        level_idc: H264LevelIdc,
    ) -> Option<Self> {
        let profile = table::profile_of(profile_idc, profile_iop)?;
        Some(H264ProfileLevel {
            profile,
            level: level_idc,
        })
    }

    /// The profile.
    pub fn profile(&self) -> H264Profile {
        self.profile
    }

    /// The level.
    pub fn level(&self) -> H264LevelIdc {
        self.level
    }
}

/// The three bytes of a `profile-level-id`: profile_idc, profile_iop and level_idc. The top byte of
/// the value is ignored (RFC 6184, section 8.1).
impl TryFrom<u32> for H264ProfileLevel {
    type Error = ();

    fn try_from(value: u32) -> Result<Self, ()> {
        let profile_idc = (value >> 16 & 0xff) as u8;
        let profile_iop = (value >> 8 & 0xff) as u8;
        let level_id = (value & 0xff) as u8;
        from_bytes(profile_idc, profile_iop, level_id).ok_or(())
    }
}

/// `FALLBACK`: what stands where a format says nothing.
impl Default for H264ProfileLevel {
    fn default() -> Self {
        Self::FALLBACK
    }
}

/// What the three bytes of a `profile-level-id` say.
fn from_bytes(profile_idc: u8, profile_iop: u8, level_id: u8) -> Option<H264ProfileLevel> {
    let level = table::level_with(profile_idc, profile_iop, level_id)?;
    let idc = H264ProfileIdc::try_from(profile_idc).ok()?;
    H264ProfileLevel::new(idc, profile_iop, level)
}
