//! Profiles and levels: no call takes memory.

use crate::proved::h26x_profile::{
    BitPattern, H264LevelIdc, H264Profile, H264ProfileIdc, H264ProfileLevel, H265Level,
    H265Profile, H265ProfileTierLevel, H265Tier, H266Level, H266Profile, H266ProfileTierLevel,
    H266Tier,
};
use crate::refusing::without_memory;

#[test]
fn formats_of_h264() {
    without_memory(|| {
        let read = H264ProfileLevel::try_from(0x640c34);
        let read = read.map(|it| (it.profile(), it.level()));
        assert!(read == Ok((H264Profile::ConstrainedHigh, H264LevelIdc::Level5_2)));
        let made = H264ProfileLevel::new(H264ProfileIdc::X2C, 0x10, H264LevelIdc::Level3_1);
        let made = made.map(|it| (it.profile(), it.level()));
        assert!(made == Some((H264Profile::CAVLC444Intra, H264LevelIdc::Level3_1)));
    });
}

#[test]
fn numbers_of_h264() {
    without_memory(|| {
        let read = (H264ProfileIdc::try_from(244), H264LevelIdc::try_from(9));
        assert!(read == (Ok(H264ProfileIdc::XF4), Err(())));
        assert!(H264LevelIdc::Level1 < H264LevelIdc::Level1B);
        assert!(H264LevelIdc::Level5_2.ordinal() == 16);
        let places = *b"x1xx0000";
        assert!(BitPattern { places }.matches(0x40));
    });
}

#[test]
fn formats_of_h265() {
    without_memory(|| {
        let made = H265ProfileTierLevel::new(1, 0, 93);
        let made = made.map(|it| (it.profile(), it.tier(), it.level()));
        assert!(made == Some((H265Profile::Main, H265Tier::Main, H265Level::Level3_1)));
        let high = H265ProfileTierLevel::from((2, 1, 186)).with_level(H265Level::Level4);
        assert!((high.profile_id(), high.tier_flag(), high.level_id()) == (2, 1, 120));
    });
}

#[test]
fn numbers_of_h265() {
    without_memory(|| {
        assert!(H265Profile::from_id(99).is_none());
        assert!(H265Tier::from_flag(1) == Some(H265Tier::High));
        assert!(H265Level::from_id(120) == Some(H265Level::Level4));
        assert!(H265Profile::Main10.to_id() == 2 && H265Tier::High.to_flag() == 1);
        assert!(H265Level::Level4.to_id() == 120 && H265Level::Level3_1.ordinal() == 4);
        assert!(H265Level::Level2_1 < H265Level::Level3);
    });
}

#[test]
fn formats_of_h266() {
    without_memory(|| {
        let made = H266ProfileTierLevel::new(1, 0, 51);
        let made = made.map(|it| (it.profile(), it.tier(), it.level()));
        assert!(made == Some((H266Profile::Main10, H266Tier::Main, H266Level::Level3_1)));
        let high = H266ProfileTierLevel::from((17, 1, 102)).with_level(H266Level::Level5_1);
        assert!((high.profile_id(), high.tier_flag(), high.level_id()) == (17, 1, 83));
    });
}

#[test]
fn numbers_of_h266() {
    without_memory(|| {
        assert!(H266Profile::from_id(2).is_none());
        assert!(H266Tier::from_flag(1) == Some(H266Tier::High));
        assert!(H266Level::from_id(255) == Some(H266Level::Level15_5));
        assert!(H266Profile::MultilayerMain10.to_id() == 17 && H266Tier::High.to_flag() == 1);
        assert!(H266Level::Level5_1.to_id() == 83 && H266Level::Level1.ordinal() == 0);
        assert!(H266Level::Level6_3 < H266Level::Level15_5);
    });
}

/// A format line of H.266: the parameters alone take memory.
#[cfg(feature = "std")]
#[test]
fn format_lines() {
    let line = [("profile-id", "1"), ("tier-flag", "0"), ("level-id", "51")];
    let params = line
        .map(|(name, value)| (name.to_owned(), value.to_owned()))
        .into();
    without_memory(|| {
        assert!(H265ProfileTierLevel::from_fmtp(&params).is_none());
        assert!(H266ProfileTierLevel::from_fmtp(&params) == H266ProfileTierLevel::new(1, 0, 51));
    });
}
