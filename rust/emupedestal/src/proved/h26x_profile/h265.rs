// Made from crates/h26x_profile/src/h265.rt by tools/to-rust.

//! Profiles, tiers and levels of H.265.

use crate::proved::h26x_profile::numbered::Numbered;
use crate::proved::h26x_profile::profile_tier_level::ProfileTierLevel;

/// A profile of H.265, as `profile-id` names it (RFC 7798, section 7.1; Rec. ITU-T H.265, Annex A).
///
/// What `as` gives is its place in this list, from 0, and not its `profile-id`, which `to_id` is.
#[cfg_attr(feature = "serde", derive(serde::Serialize, serde::Deserialize))]
#[derive(Debug, Clone, Copy, PartialEq, Eq, Hash)]
pub enum H265Profile {
    /// Main, id 1.
    Main,
    /// Main 10, id 2.
    Main10,
    /// Main Still Picture, id 3.
    MainStillPicture,
    /// Format range extensions, id 4.
    FormatRangeExtensions,
    /// High throughput, id 5.
    HighThroughput,
    /// Multiview Main, id 6.
    MultiviewMain,
    /// Scalable Main, id 7.
    ScalableMain,
    /// 3D Main, id 8.
    ThreeDMain,
    /// Screen content coding, id 9.
    ScreenContentCoding,
    /// Screen content coding extensions, id 10.
    ScreenContentCodingExtensions,
    /// High throughput screen content coding, id 11.
    HighThroughputScreenContentCoding,
}

impl H265Profile {
    /// The profile with this `profile-id`, if one has it (RFC 7798, section 7.1).
    pub fn from_id(id: u8) -> Option<Self> {
        match id {
            1 => Some(H265Profile::Main),
            2 => Some(H265Profile::Main10),
            3 => Some(H265Profile::MainStillPicture),
            4 => Some(H265Profile::FormatRangeExtensions),
            5 => Some(H265Profile::HighThroughput),
            6 => Some(H265Profile::MultiviewMain),
            7 => Some(H265Profile::ScalableMain),
            8 => Some(H265Profile::ThreeDMain),
            9 => Some(H265Profile::ScreenContentCoding),
            10 => Some(H265Profile::ScreenContentCodingExtensions),
            11 => Some(H265Profile::HighThroughputScreenContentCoding),
            _ => None,
        }
    }

    /// The profile's `profile-id` (RFC 7798, section 7.1).
    pub fn to_id(self) -> u8 {
        match self {
            H265Profile::Main => 1,
            H265Profile::Main10 => 2,
            H265Profile::MainStillPicture => 3,
            H265Profile::FormatRangeExtensions => 4,
            H265Profile::HighThroughput => 5,
            H265Profile::MultiviewMain => 6,
            H265Profile::ScalableMain => 7,
            H265Profile::ThreeDMain => 8,
            H265Profile::ScreenContentCoding => 9,
            H265Profile::ScreenContentCodingExtensions => 10,
            H265Profile::HighThroughputScreenContentCoding => 11,
        }
    }
}

impl Numbered for H265Profile {
    fn from_number(number: u8) -> Option<Self> {
        H265Profile::from_id(number)
    }

    fn to_number(self) -> u8 {
        self.to_id()
    }
}

/// A tier of H.265, as `tier-flag` names it (RFC 7798, section 7.1). What `as` gives is the
/// flag.
#[cfg_attr(feature = "serde", derive(serde::Serialize, serde::Deserialize))]
#[derive(Debug, Clone, Copy, PartialEq, Eq, Hash)]
pub enum H265Tier {
    /// Main, flag 0.
    Main,
    /// High, flag 1.
    High,
}

impl H265Tier {
    /// The tier with this `tier-flag`, if one has it (RFC 7798, section 7.1).
    pub fn from_flag(flag: u8) -> Option<Self> {
        match flag {
            0 => Some(H265Tier::Main),
            1 => Some(H265Tier::High),
            _ => None,
        }
    }

    /// The tier's `tier-flag` (RFC 7798, section 7.1).
    pub fn to_flag(self) -> u8 {
        match self {
            H265Tier::Main => 0,
            H265Tier::High => 1,
        }
    }
}

impl Numbered for H265Tier {
    fn from_number(number: u8) -> Option<Self> {
        H265Tier::from_flag(number)
    }

    fn to_number(self) -> u8 {
        self.to_flag()
    }
}

/// A level of H.265, as `level-id` names it (RFC 7798, section 7.1; Rec. ITU-T H.265, Annex A).
/// Levels are ordered by `ordinal`, and so by their ids. What `as` gives is the id.
#[cfg_attr(feature = "serde", derive(serde::Serialize, serde::Deserialize))]
#[derive(Debug, Clone, Copy, PartialEq, Eq, PartialOrd, Ord, Hash)]
pub enum H265Level {
    /// Level 1.
    Level1 = 30,
    /// Level 2.
    Level2 = 60,
    /// Level 2.1.
    Level2_1 = 63,
    /// Level 3.
    Level3 = 90,
    /// Level 3.1.
    Level3_1 = 93,
    /// Level 4.
    Level4 = 120,
    /// Level 4.1.
    Level4_1 = 123,
    /// Level 5.
    Level5 = 150,
    /// Level 5.1.
    Level5_1 = 153,
    /// Level 5.2.
    Level5_2 = 156,
    /// Level 6.
    Level6 = 180,
    /// Level 6.1.
    Level6_1 = 183,
    /// Level 6.2.
    Level6_2 = 186,
}

impl H265Level {
    /// The level with this `level-id`, if one has it (RFC 7798, section 7.1).
    pub fn from_id(id: u8) -> Option<Self> {
        match id {
            30 => Some(H265Level::Level1),
            60 => Some(H265Level::Level2),
            63 => Some(H265Level::Level2_1),
            90 => Some(H265Level::Level3),
            93 => Some(H265Level::Level3_1),
            120 => Some(H265Level::Level4),
            123 => Some(H265Level::Level4_1),
            150 => Some(H265Level::Level5),
            153 => Some(H265Level::Level5_1),
            156 => Some(H265Level::Level5_2),
            180 => Some(H265Level::Level6),
            183 => Some(H265Level::Level6_1),
            186 => Some(H265Level::Level6_2),
            _ => None,
        }
    }

    /// The level's `level-id` (RFC 7798, section 7.1).
    pub fn to_id(self) -> u8 {
        self as u8
    }

    /// The level's place among all levels, from 0.
    pub fn ordinal(self) -> usize {
        match self {
            H265Level::Level1 => 0,
            H265Level::Level2 => 1,
            H265Level::Level2_1 => 2,
            H265Level::Level3 => 3,
            H265Level::Level3_1 => 4,
            H265Level::Level4 => 5,
            H265Level::Level4_1 => 6,
            H265Level::Level5 => 7,
            H265Level::Level5_1 => 8,
            H265Level::Level5_2 => 9,
            H265Level::Level6 => 10,
            H265Level::Level6_1 => 11,
            H265Level::Level6_2 => 12,
        }
    }
}

impl Numbered for H265Level {
    fn from_number(number: u8) -> Option<Self> {
        H265Level::from_id(number)
    }

    fn to_number(self) -> u8 {
        self.to_id()
    }
}

/// The profile, tier and level of an H.265 format in SDP (RFC 7798, section 7.1).
pub type H265ProfileTierLevel = ProfileTierLevel<H265Profile, H265Tier, H265Level>;

impl ProfileTierLevel<H265Profile, H265Tier, H265Level> {
    /// What stands where an H.265 format says nothing (RFC 7798, section 7.1).
    pub const FALLBACK: Self = ProfileTierLevel {
        profile: H265Profile::Main,
        tier: H265Tier::Main,
        level: H265Level::Level3_1,
    };
}

/// The profile, tier and level with these numbers, or `FALLBACK` where one is unknown.
impl From<(u8, u8, u8)> for H265ProfileTierLevel {
    fn from(numbers: (u8, u8, u8)) -> Self {
        let (profile_id, tier_flag, level_id) = numbers;
        Self::new(profile_id, tier_flag, level_id).unwrap_or(Self::FALLBACK)
    }
}

/// `FALLBACK`: what stands where a format says nothing (RFC 7798, section 7.1).
impl Default for H265ProfileTierLevel {
    fn default() -> Self {
        Self::FALLBACK
    }
}
