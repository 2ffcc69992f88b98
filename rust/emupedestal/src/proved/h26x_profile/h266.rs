// Made from crates/h26x_profile/src/h266.rt by tools/to-rust.

//! Profiles, tiers and levels of H.266.

use crate::proved::h26x_profile::numbered::Numbered;
use crate::proved::h26x_profile::profile_tier_level::ProfileTierLevel;

/// A profile of H.266, as `profile-id` names it (RFC 9328, section 7.2; Rec. ITU-T H.266, Annex A).
///
/// What `as` gives is its place in this list, from 0, and not its `profile-id`, which `to_id` is.
#[cfg_attr(feature = "serde", derive(serde::Serialize, serde::Deserialize))]
#[derive(Debug, Clone, Copy, PartialEq, Eq, Hash)]
pub enum H266Profile {
    /// Main 10, id 1.
    Main10,
    /// Multilayer Main 10, id 17.
    MultilayerMain10,
    /// Main 10 4:4:4, id 33.
    Main10_444,
    /// Multilayer Main 10 4:4:4, id 49.
    MultilayerMain10_444,
    /// Main 10 Still Picture, id 65.
    Main10StillPicture,
    /// Multilayer Main 10 Still Picture, id 81.
    MultilayerMain10StillPicture,
    /// Main 10 4:4:4 Still Picture, id 97.
    Main10_444StillPicture,
    /// Multilayer Main 10 4:4:4 Still Picture, id 113.
    MultilayerMain10_444StillPicture,
}

impl H266Profile {
    /// The profile with this `profile-id`, if one has it (RFC 9328, section 7.2).
    pub fn from_id(id: u8) -> Option<Self> {
        match id {
            1 => Some(H266Profile::Main10),
            17 => Some(H266Profile::MultilayerMain10),
            33 => Some(H266Profile::Main10_444),
            49 => Some(H266Profile::MultilayerMain10_444),
            65 => Some(H266Profile::Main10StillPicture),
            81 => Some(H266Profile::MultilayerMain10StillPicture),
            97 => Some(H266Profile::Main10_444StillPicture),
            113 => Some(H266Profile::MultilayerMain10_444StillPicture),
            _ => None,
        }
    }

    /// The profile's `profile-id` (RFC 9328, section 7.2).
    pub fn to_id(self) -> u8 {
        match self {
            H266Profile::Main10 => 1,
            H266Profile::MultilayerMain10 => 17,
            H266Profile::Main10_444 => 33,
            H266Profile::MultilayerMain10_444 => 49,
            H266Profile::Main10StillPicture => 65,
            H266Profile::MultilayerMain10StillPicture => 81,
            H266Profile::Main10_444StillPicture => 97,
            H266Profile::MultilayerMain10_444StillPicture => 113,
        }
    }
}

impl Numbered for H266Profile {
    fn from_number(number: u8) -> Option<Self> {
        H266Profile::from_id(number)
    }

    fn to_number(self) -> u8 {
        self.to_id()
    }
}

/// A tier of H.266, as `tier-flag` names it (RFC 9328, section 7.2). What `as` gives is the
/// flag.
#[cfg_attr(feature = "serde", derive(serde::Serialize, serde::Deserialize))]
#[derive(Debug, Clone, Copy, PartialEq, Eq, Hash)]
pub enum H266Tier {
    /// Main, flag 0.
    Main,
    /// High, flag 1.
    High,
}

impl H266Tier {
    /// The tier with this `tier-flag`, if one has it (RFC 9328, section 7.2).
    pub fn from_flag(flag: u8) -> Option<Self> {
        match flag {
            0 => Some(H266Tier::Main),
            1 => Some(H266Tier::High),
            _ => None,
        }
    }

    /// The tier's `tier-flag` (RFC 9328, section 7.2).
    pub fn to_flag(self) -> u8 {
        match self {
            H266Tier::Main => 0,
            H266Tier::High => 1,
        }
    }
}

impl Numbered for H266Tier {
    fn from_number(number: u8) -> Option<Self> {
        H266Tier::from_flag(number)
    }

    fn to_number(self) -> u8 {
        self.to_flag()
    }
}

/// A level of H.266, as `level-id` names it (RFC 9328, section 7.2; Rec. ITU-T H.266, Annex A).
/// Levels are ordered by `ordinal`, and so by their ids. What `as` gives is the id.
#[cfg_attr(feature = "serde", derive(serde::Serialize, serde::Deserialize))]
#[derive(Debug, Clone, Copy, PartialEq, Eq, PartialOrd, Ord, Hash)]
pub enum H266Level {
    /// Level 1.
    Level1 = 16,
    /// Level 2.
    Level2 = 32,
    /// Level 2.1.
    Level2_1 = 35,
    /// Level 3.
    Level3 = 48,
    /// Level 3.1.
    Level3_1 = 51,
    /// Level 4.
    Level4 = 64,
    /// Level 4.1.
    Level4_1 = 67,
    /// Level 5.
    Level5 = 80,
    /// Level 5.1.
    Level5_1 = 83,
    /// Level 5.2.
    Level5_2 = 86,
    /// Level 6.
    Level6 = 96,
    /// Level 6.1.
    Level6_1 = 99,
    /// Level 6.2.
    Level6_2 = 102,
    /// Level 6.3.
    Level6_3 = 105,
    /// Level 15.5.
    Level15_5 = 255,
}

impl H266Level {
    /// The level with this `level-id`, if one has it (RFC 9328, section 7.2).
    pub fn from_id(id: u8) -> Option<Self> {
        match id {
            16 => Some(H266Level::Level1),
            32 => Some(H266Level::Level2),
            35 => Some(H266Level::Level2_1),
            48 => Some(H266Level::Level3),
            51 => Some(H266Level::Level3_1),
            64 => Some(H266Level::Level4),
            67 => Some(H266Level::Level4_1),
            80 => Some(H266Level::Level5),
            83 => Some(H266Level::Level5_1),
            86 => Some(H266Level::Level5_2),
            96 => Some(H266Level::Level6),
            99 => Some(H266Level::Level6_1),
            102 => Some(H266Level::Level6_2),
            105 => Some(H266Level::Level6_3),
            255 => Some(H266Level::Level15_5),
            _ => None,
        }
    }

    /// The level's `level-id` (RFC 9328, section 7.2).
    pub fn to_id(self) -> u8 {
        self as u8
    }

    /// The level's place among all levels, from 0.
    pub fn ordinal(self) -> usize {
        match self {
            H266Level::Level1 => 0,
            H266Level::Level2 => 1,
            H266Level::Level2_1 => 2,
            H266Level::Level3 => 3,
            H266Level::Level3_1 => 4,
            H266Level::Level4 => 5,
            H266Level::Level4_1 => 6,
            H266Level::Level5 => 7,
            H266Level::Level5_1 => 8,
            H266Level::Level5_2 => 9,
            H266Level::Level6 => 10,
            H266Level::Level6_1 => 11,
            H266Level::Level6_2 => 12,
            H266Level::Level6_3 => 13,
            H266Level::Level15_5 => 14,
        }
    }
}

impl Numbered for H266Level {
    fn from_number(number: u8) -> Option<Self> {
        H266Level::from_id(number)
    }

    fn to_number(self) -> u8 {
        self.to_id()
    }
}

/// The profile, tier and level of an H.266 format in SDP (RFC 9328, section 7.2).
pub type H266ProfileTierLevel = ProfileTierLevel<H266Profile, H266Tier, H266Level>;

impl ProfileTierLevel<H266Profile, H266Tier, H266Level> {
    /// What stands where an H.266 format says nothing (RFC 9328, section 7.2).
    pub const FALLBACK: Self = ProfileTierLevel {
        profile: H266Profile::Main10,
        tier: H266Tier::Main,
        level: H266Level::Level3_1,
    };
}

/// The profile, tier and level with these numbers, or `FALLBACK` where one is unknown.
impl From<(u8, u8, u8)> for H266ProfileTierLevel {
    fn from(numbers: (u8, u8, u8)) -> Self {
        let (profile_id, tier_flag, level_id) = numbers;
        Self::new(profile_id, tier_flag, level_id).unwrap_or(Self::FALLBACK)
    }
}

/// `FALLBACK`: what stands where a format says nothing (RFC 9328, section 7.2).
impl Default for H266ProfileTierLevel {
    fn default() -> Self {
        Self::FALLBACK
    }
}
