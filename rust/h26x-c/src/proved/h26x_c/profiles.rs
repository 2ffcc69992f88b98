// Made from crates/h26x_c/src/profiles.rt by tools/to-rust.

//! The calls on profiles and levels out of SDP.

use crate::proved::h26x_profile::{
    H264Profile, H264ProfileLevel, H265ProfileTierLevel, H266ProfileTierLevel,
};
use core::mem::MaybeUninit;

/// Whether the three bytes of a `profile-level-id` name a profile and a level (RFC 6184, section
/// 8.1), and the numbers of both.
pub fn h26x_h264_profile_level(
    profile_level_id: u32,
    profile: &mut MaybeUninit<u8>,
    level: &mut MaybeUninit<u8>,
) -> bool {
    match H264ProfileLevel::try_from(profile_level_id) {
        Ok(it) => {
            profile.write(number_of(it.profile()));
            level.write(it.level().ordinal() as u8);
            true
        }
        Err(()) => false,
    }
}

/// Whether a profile, a tier and a level of H.265 have these numbers (RFC 7798, section 7.1).
pub fn h26x_h265_is_known(profile_id: u8, tier_flag: u8, level_id: u8) -> bool {
    H265ProfileTierLevel::new(profile_id, tier_flag, level_id).is_some()
}

/// Whether a profile, a tier and a level of H.266 have these numbers (RFC 9328, section 7.2).
pub fn h26x_h266_is_known(profile_id: u8, tier_flag: u8, level_id: u8) -> bool {
    H266ProfileTierLevel::new(profile_id, tier_flag, level_id).is_some()
}

/// The number of a profile.
fn number_of(profile: H264Profile) -> u8 {
    profile as u8
}
