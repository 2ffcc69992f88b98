//! Profiles and levels out of SDP, beside what `rows` asks of them. What is wanted was taken from the tables of
//! the RFCs and of the standards' Annex A.

use crate::{
    H264LevelIdc, H264Profile, H264ProfileIdc, H264ProfileLevel, H265Level, H265Profile,
    H265ProfileTierLevel, H265Tier, H266Level, H266Profile, H266ProfileTierLevel, H266Tier,
};
use std::collections::HashMap;

/// What a `profile-level-id` says.
fn told(id: u32) -> Option<(H264Profile, H264LevelIdc)> {
    let it = H264ProfileLevel::try_from(id).ok()?;
    Some((it.profile(), it.level()))
}

/// A profile_idc, a profile_iop, and the profile (RFC 6184, 8.1, table 5).
#[test]
fn h264_by_profile_idc_and_flags() {
    for (idc, iop, profile) in [
        (66, 0xc0, Some(H264Profile::ConstrainedBaseline)),
        (66, 0xb0, Some(H264Profile::Baseline)),
        (66, 0x01, None),
        (77, 0x10, Some(H264Profile::Main)),
        (88, 0x80, Some(H264Profile::Baseline)),
        (88, 0x30, Some(H264Profile::Extended)),
        (100, 0x00, Some(H264Profile::High)),
        (100, 0x0c, Some(H264Profile::ConstrainedHigh)),
        (100, 0x10, None),
        (110, 0x10, Some(H264Profile::High10Intra)),
        (122, 0x00, Some(H264Profile::High422)),
        (244, 0x10, Some(H264Profile::High444Intra)),
        (44, 0x10, Some(H264Profile::CAVLC444Intra)),
        (44, 0x00, None),
    ] {
        let known = H264ProfileIdc::try_from(idc).expect("a known profile_idc");
        assert_eq!(u8::from(known), idc);
        for level in [H264LevelIdc::Level1B, H264LevelIdc::Level5_2] {
            let it = H264ProfileLevel::new(known, iop, level);
            let wanted = profile.map(|profile| (profile, level));
            assert_eq!(it.map(|it| (it.profile(), it.level())), wanted, "{idc}");
        }
    }
    for idc in [0, 43, 67, 99, 118, 255] {
        assert_eq!(H264ProfileIdc::try_from(idc), Err(()));
    }
}

/// Levels by their ids, from the lowest to the highest.
#[test]
fn places_of_levels() {
    #[track_caller]
    fn check<L>(ids: &[u8], ordinal: fn(L) -> usize)
    where
        L: TryFrom<u8, Error = ()> + Into<u8> + Ord + Copy,
    {
        let levels: Vec<L> = ids.iter().filter_map(|id| L::try_from(*id).ok()).collect();
        assert!(levels.iter().copied().map(ordinal).eq(0..ids.len()));
        assert!(levels.iter().map(|level| (*level).into()).eq(ids.to_vec()));
        assert!(levels.is_sorted_by(|a, b| a < b));
        let others = (0..=u8::MAX).filter(|id| !ids.contains(id));
        assert!(others.map(L::try_from).all(|level| level.is_err()));
    }
    let h264 = [
        10, 0, 11, 12, 13, 20, 21, 22, 30, 31, 32, 40, 41, 42, 50, 51, 52,
    ];
    check(&h264, H264LevelIdc::ordinal);
    let h265 = [30, 60, 63, 90, 93, 120, 123, 150, 153, 156, 180, 183, 186];
    check(&h265, H265Level::ordinal);
    let h266 = [
        16, 32, 35, 48, 51, 64, 67, 80, 83, 86, 96, 99, 102, 105, 255,
    ];
    check(&h266, H266Level::ordinal);
}

/// What `as` gives, as of str0m's enums: places of profiles, and ids of levels.
#[test]
fn values_as_numbers() {
    let h264 = [
        H264Profile::Baseline,
        H264Profile::High,
        H264Profile::CAVLC444Intra,
    ];
    assert_eq!(h264.map(|profile| profile as u8), [0, 4, 12]);
    let idcs = [
        H264ProfileIdc::X2C,
        H264ProfileIdc::X42,
        H264ProfileIdc::XF4,
    ];
    assert_eq!(idcs.map(|idc| idc as u8), [44, 66, 244]);
    let levels = [
        H264LevelIdc::Level1,
        H264LevelIdc::Level1B,
        H264LevelIdc::Level5_2,
    ];
    assert_eq!(levels.map(|level| level as u8), [10, 0, 52]);

    let last = H265Profile::HighThroughputScreenContentCoding;
    let h265 = [H265Profile::Main, H265Profile::Main10, last];
    assert_eq!(h265.map(|profile| profile as u8), [0, 1, 10]);
    assert_eq!(h265.map(u8::from), [1, 2, 11]);
    let tiers = [H265Tier::Main, H265Tier::High];
    assert_eq!(tiers.map(|tier| tier as u8), [0, 1]);
    let levels = [H265Level::Level1, H265Level::Level6_2];
    assert_eq!(levels.map(|level| level as u8), [30, 186]);

    let last = H266Profile::MultilayerMain10_444StillPicture;
    let h266 = [H266Profile::Main10, H266Profile::MultilayerMain10, last];
    assert_eq!(h266.map(|profile| profile as u8), [0, 1, 7]);
    assert_eq!(h266.map(u8::from), [1, 17, 113]);
    let tiers = [H266Tier::Main, H266Tier::High];
    assert_eq!(tiers.map(|tier| tier as u8), [0, 1]);
    let levels = [H266Level::Level1, H266Level::Level15_5];
    assert_eq!(levels.map(|level| level as u8), [16, 255]);
}

#[test]
fn what_stands_where_a_format_says_nothing() {
    assert_eq!(H264ProfileLevel::default(), H264ProfileLevel::FALLBACK);
    assert_eq!(
        H265ProfileTierLevel::default(),
        H265ProfileTierLevel::FALLBACK
    );
    assert_eq!(
        H266ProfileTierLevel::default(),
        H266ProfileTierLevel::FALLBACK
    );
}

/// Parameters of a format, as `name=value`.
fn params(of: &[&str]) -> HashMap<String, String> {
    of.iter()
        .filter_map(|param| param.split_once('='))
        .map(|(name, value)| (name.to_string(), value.to_string()))
        .collect()
}

/// A space is no part of a number.
#[test]
fn parameters_of_a_format() {
    let h265 = |id| H265ProfileTierLevel::from_fmtp(&params(&[id, "tier-flag=0", "level-id=93"]));
    assert_eq!(h265("profile-id=1"), H265ProfileTierLevel::new(1, 0, 93));
    assert_eq!(h265("profile-id= 1"), None);
    let h266 = params(&["profile-id=1", "tier-flag=0", "level-id=51"]);
    let wanted = H266ProfileTierLevel::new(1, 0, 51);
    assert_eq!(H266ProfileTierLevel::from_fmtp(&h266), wanted);
}

/// Six digits in either case (RFC 6184, 8.1).
#[test]
fn the_profile_level_id_of_a_format() {
    let said = |id: &str| H264ProfileLevel::from_fmtp(&params(&["packetization-mode=1", id]));
    for (id, number) in [
        ("profile-level-id=42e01f", 0x42e01f),
        ("profile-level-id=640C1F", 0x640c1f),
        ("profile-level-id=42100b", 0x42100b),
    ] {
        assert_eq!(said(id), H264ProfileLevel::try_from(number).ok(), "{id}");
    }
    assert_eq!(
        told(0x640c1f),
        Some((H264Profile::ConstrainedHigh, H264LevelIdc::Level3_1))
    );
    for id in [
        "profile-level-id=",
        "profile-level-id=42e01",
        "profile-level-id=0042e01f",
        "profile-level-id=42e01g",
        "profile-level-id= 42e01",
        "profile-level-id=+42e01",
        "profile-level-id=63001f",
        "profile-level-id=640063",
        "Profile-Level-ID=42e01f",
    ] {
        assert_eq!(said(id), None, "{id}");
    }
}

/// A number is one of the three's just where a value has it, which gives it back.
#[test]
fn known_numbers() {
    let h265_is_known = |a, b, c| H265ProfileTierLevel::new(a, b, c).is_some();
    let h266_is_known = |a, b, c| H266ProfileTierLevel::new(a, b, c).is_some();
    for n in 0..=u8::MAX {
        let profile = H265Profile::from_id(n).map(H265Profile::to_id);
        assert_eq!(profile, h265_is_known(n, 0, 93).then_some(n));
        let tier = H265Tier::from_flag(n).map(H265Tier::to_flag);
        assert_eq!(tier, h265_is_known(1, n, 93).then_some(n));
        let level = H265Level::from_id(n).map(H265Level::to_id);
        assert_eq!(level, h265_is_known(1, 0, n).then_some(n));

        let profile = H266Profile::from_id(n).map(H266Profile::to_id);
        assert_eq!(profile, h266_is_known(n, 0, 51).then_some(n));
        let tier = H266Tier::from_flag(n).map(H266Tier::to_flag);
        assert_eq!(tier, h266_is_known(1, n, 51).then_some(n));
        let level = H266Level::from_id(n).map(H266Level::to_id);
        assert_eq!(level, h266_is_known(1, 0, n).then_some(n));
    }
}
