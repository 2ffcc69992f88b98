//! Profiles, tiers and levels, as numbers and as texts of SDP.

use crate::input::Input;
use emupedestal::*;
use std::collections::HashMap;

pub fn check(codec: Codec, mut input: Input) {
    match codec {
        Codec::H264 => check_h264(u32::from(input.word()) << 16 | u32::from(input.word())),
        Codec::H265 => check_h265(&mut input),
        Codec::H266 => check_h266(&mut input),
    }
}

/// A `profile-level-id` names what its three bytes name one by one (RFC 6184, 8.1).
fn check_h264(value: u32) {
    let found = H264ProfileLevel::try_from(value);
    assert_eq!(
        found,
        H264ProfileLevel::try_from(value & 0xff_ffff),
        "the top byte is ignored"
    );
    let [_, profile_idc, profile_iop, level_idc] = value.to_be_bytes();
    let Ok(profile_idc) = H264ProfileIdc::try_from(profile_idc) else {
        assert_eq!(found, Err(()));
        return;
    };
    match found {
        Ok(it) => {
            let made =
                H264ProfileLevel::new(profile_idc, profile_iop, it.level()).expect("its profile");
            assert!(made.profile() == it.profile() || it.level() == H264LevelIdc::Level1B);
            let is_1b = it.level() == H264LevelIdc::Level1B;
            assert!(is_1b || u8::from(it.level()) == level_idc);
        }
        Err(()) => {
            let is_level = H264LevelIdc::try_from(level_idc).is_ok();
            let named = H264ProfileLevel::new(profile_idc, profile_iop, H264LevelIdc::Level4);
            assert!(named.is_none() || !is_level || level_idc == 0);
        }
    }
}

/// The parameters of a format, by texts of an input; each is there where its text isn't empty.
fn parameters(input: &mut Input) -> HashMap<String, String> {
    let names = ["profile-id", "tier-flag", "level-id"];
    let texts = names.map(|name| (name, String::from_utf8_lossy(input.bytes()).into_owned()));
    let there = texts.into_iter().filter(|(_, text)| !text.is_empty());
    there.map(|(name, text)| (name.to_string(), text)).collect()
}

/// What three texts say as numbers of eight bits, as far as they do.
fn numbers(parameters: &HashMap<String, String>) -> Option<[u8; 3]> {
    let number = |name: &str| parameters.get(name)?.parse().ok();
    Some([
        number("profile-id")?,
        number("tier-flag")?,
        number("level-id")?,
    ])
}

macro_rules! checks {
    ($name:ident, $all:ident, $profile:ident, $tier:ident, $level:ident) => {
        fn $name(input: &mut Input) {
            let [profile, tier, level] = [input.byte(), input.byte(), input.byte()];
            let made = $all::new(profile, tier, level);
            let parts = (
                $profile::from_id(profile),
                $tier::from_flag(tier),
                $level::from_id(level),
            );
            match (made, parts) {
                (Some(it), (Some(a), Some(b), Some(c))) => {
                    assert_eq!((it.profile(), it.tier(), it.level()), (a, b, c));
                    let ids = (it.profile_id(), it.tier_flag(), it.level_id());
                    assert_eq!(ids, (profile, tier, level));
                    assert_eq!($all::from(ids), it);
                    let higher = input.byte();
                    if let Some(other) = $level::from_id(higher) {
                        assert_eq!(it.level() < other, level < higher);
                        assert_eq!(it.with_level(other).level(), other);
                    }
                }
                (None, (Some(_), Some(_), Some(_))) => panic!("each of them is known"),
                (Some(_), _) => panic!("one of them isn't known"),
                (None, _) => assert_eq!($all::from((profile, tier, level)), $all::FALLBACK),
            }
            let parameters = parameters(input);
            let wanted = numbers(&parameters).and_then(|[a, b, c]| $all::new(a, b, c));
            assert_eq!($all::from_fmtp(&parameters), wanted);
        }
    };
}

checks!(
    check_h265,
    H265ProfileTierLevel,
    H265Profile,
    H265Tier,
    H265Level
);
checks!(
    check_h266,
    H266ProfileTierLevel,
    H266Profile,
    H266Tier,
    H266Level
);
