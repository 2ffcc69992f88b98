//! Profiles and levels out of SDP: the proved types, with their numbers by Rust's own traits too.

#[cfg(feature = "std")]
use alloc::string::String;
#[cfg(feature = "std")]
use std::collections::HashMap;

pub use crate::proved::h26x_profile::{H264LevelIdc, H264Profile, H264ProfileIdc};
pub use crate::proved::h26x_profile::{H265Level, H265Profile, H265Tier};
pub use crate::proved::h26x_profile::{H266Level, H266Profile, H266Tier};
pub use crate::proved::h26x_profile::{Numbered, ProfileTierLevel};

/// ```
/// use emupedestal::{H264LevelIdc, H264Profile, H264ProfileIdc, H264ProfileLevel};
///
/// let high = H264ProfileLevel::try_from(0x64001f)?;
/// assert_eq!((high.profile(), high.level()), (H264Profile::High, H264LevelIdc::Level3_1));
/// let it = H264ProfileLevel::new(H264ProfileIdc::X42, 0xe0, H264LevelIdc::Level4).unwrap();
/// assert_eq!(it.profile(), H264Profile::ConstrainedBaseline);
/// # Ok::<(), ()>(())
/// ```
pub use crate::proved::h26x_profile::H264ProfileLevel;

#[cfg(feature = "std")]
impl H264ProfileLevel {
    /// What the parameter `profile-level-id` of a format says, by six hexadecimal digits (RFC 6184, 8.1).
    /// `None` where it isn't there, is another text, or names nothing.
    pub fn from_fmtp(params: &HashMap<String, String>) -> Option<Self> {
        let digits = params.get("profile-level-id")?;
        if digits.len() != 6 || !digits.bytes().all(|digit| digit.is_ascii_hexdigit()) {
            return None;
        }
        Self::try_from(u32::from_str_radix(digits, 16).ok()?).ok()
    }
}

/// The profile, tier and level of an H.265 format in SDP (RFC 7798, 7.1).
///
/// ```
/// use emupedestal::{H265Level, H265ProfileTierLevel};
/// use std::collections::HashMap;
///
/// let params = [("profile-id", "1"), ("tier-flag", "0"), ("level-id", "93")];
/// let params = params.map(|(name, value)| (name.to_string(), value.to_string()));
/// let main = H265ProfileTierLevel::from_fmtp(&HashMap::from(params));
/// assert_eq!(main, H265ProfileTierLevel::new(1, 0, 93));
/// assert_eq!(main.unwrap_or(H265ProfileTierLevel::FALLBACK).level(), H265Level::Level3_1);
/// ```
pub type H265ProfileTierLevel = ProfileTierLevel<H265Profile, H265Tier, H265Level>;

/// The profile, tier and level of an H.266 format in SDP (RFC 9328, 7.2).
///
/// ```
/// use emupedestal::{H266Level, H266ProfileTierLevel};
///
/// let main = H266ProfileTierLevel::from((1, 0, 51));
/// assert!(main.level() < H266Level::Level4);
/// assert_eq!(H266ProfileTierLevel::new(1, 0, 93), None); // no level of H.266
/// ```
pub type H266ProfileTierLevel = ProfileTierLevel<H266Profile, H266Tier, H266Level>;

/// The numbers of values by `TryFrom` and `From`.
macro_rules! by_number {
    ($($name:ident),*) => {$(
        /// The value with this number. The error says that none has it.
        impl TryFrom<u8> for $name {
            type Error = ();

            fn try_from(number: u8) -> Result<Self, ()> {
                Self::from_number(number).ok_or(())
            }
        }

        /// The number in SDP.
        impl From<$name> for u8 {
            fn from(it: $name) -> u8 {
                it.to_number()
            }
        }
    )*};
}

by_number!(
    H265Profile,
    H265Tier,
    H265Level,
    H266Profile,
    H266Tier,
    H266Level
);
