// Made from crates/h26x_profile/src/profile_tier_level.rt by tools/to-rust.

//! A profile, a tier and a level of one codec.

#[cfg(feature = "std")]
use crate::proved::h26x_profile::fmtp::byte_of;
use crate::proved::h26x_profile::numbered::Numbered;
use alloc::string::String;
#[cfg(feature = "std")]
use std::collections::HashMap;

/// The profile, tier and level of a format in SDP (RFC 7798, section 7.1; RFC 9328, section 7.2).
#[cfg_attr(feature = "serde", derive(serde::Serialize, serde::Deserialize))]
#[derive(Debug, Clone, Copy, PartialEq, Eq, Hash)]
pub struct ProfileTierLevel<P, T, L> {
    pub(crate) profile: P,
    pub(crate) tier: T,
    pub(crate) level: L,
}

impl<P: Numbered, T: Numbered, L: Numbered> ProfileTierLevel<P, T, L> {
    /// The profile, tier and level with these numbers, if all three are known.
    pub fn new(profile_id: u8, tier_flag: u8, level_id: u8) -> Option<Self> {
        let profile = P::from_number(profile_id)?;
        let tier = T::from_number(tier_flag)?;
        let level = L::from_number(level_id)?;
        Some(ProfileTierLevel {
            profile,
            tier,
            level,
        })
    }

    /// What the parameters `profile-id`, `tier-flag` and `level-id` of a format say (RFC 7798,
    /// section 7.1; RFC 9328, section 7.2). `None` where one of them is not there, is no text that
    /// std reads as a `u8`, or has an unknown value.
    #[cfg(feature = "std")]
    pub fn from_fmtp(params: &HashMap<String, String>) -> Option<Self> {
        let profile_id = byte_of(params, "profile-id")?;
        let tier_flag = byte_of(params, "tier-flag")?;
        let level_id = byte_of(params, "level-id")?;
        Self::new(profile_id, tier_flag, level_id)
    }

    /// The profile.
    pub fn profile(&self) -> P {
        self.profile
    }

    /// The tier.
    pub fn tier(&self) -> T {
        self.tier
    }

    /// The level.
    pub fn level(&self) -> L {
        self.level
    }

    /// The same profile and tier at another level.
    pub fn with_level(self, level: L) -> Self {
        ProfileTierLevel { level, ..self }
    }

    /// The id of the profile.
    pub fn profile_id(&self) -> u8 {
        self.profile.to_number()
    }

    /// The flag of the tier.
    pub fn tier_flag(&self) -> u8 {
        self.tier.to_number()
    }

    /// The id of the level.
    pub fn level_id(&self) -> u8 {
        self.level.to_number()
    }
}
