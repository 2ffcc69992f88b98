package h26x

// #include <h26x.h>
import "C"

import (
	"encoding/hex"
	"strconv"
	"strings"
)

// An H264Profile is a profile of H.264 (RFC 6184, 8.1).
type H264Profile uint8

// The profiles of H.264.
const (
	H264ProfileBaseline            H264Profile = C.H26X_H264_BASELINE
	H264ProfileConstrainedBaseline H264Profile = C.H26X_H264_CONSTRAINED_BASELINE
	H264ProfileMain                H264Profile = C.H26X_H264_MAIN
	H264ProfileExtended            H264Profile = C.H26X_H264_EXTENDED
	H264ProfileHigh                H264Profile = C.H26X_H264_HIGH
	H264ProfileConstrainedHigh     H264Profile = C.H26X_H264_CONSTRAINED_HIGH
	H264ProfileHigh10              H264Profile = C.H26X_H264_HIGH_10
	H264ProfileHigh422             H264Profile = C.H26X_H264_HIGH_422
	H264ProfileHigh444Predictive   H264Profile = C.H26X_H264_HIGH_444_PREDICTIVE
	H264ProfileHigh10Intra         H264Profile = C.H26X_H264_HIGH_10_INTRA
	H264ProfileHigh422Intra        H264Profile = C.H26X_H264_HIGH_422_INTRA
	H264ProfileHigh444Intra        H264Profile = C.H26X_H264_HIGH_444_INTRA
	H264ProfileCAVLC444Intra       H264Profile = C.H26X_H264_CAVLC_444_INTRA
)

// An H264Level is a level of H.264 by its place, so that < compares levels.
type H264Level uint8

// The levels of H.264.
const (
	H264Level1   H264Level = C.H26X_H264_LEVEL_1
	H264Level1B  H264Level = C.H26X_H264_LEVEL_1B
	H264Level1_1 H264Level = C.H26X_H264_LEVEL_1_1
	H264Level1_2 H264Level = C.H26X_H264_LEVEL_1_2
	H264Level1_3 H264Level = C.H26X_H264_LEVEL_1_3
	H264Level2   H264Level = C.H26X_H264_LEVEL_2
	H264Level2_1 H264Level = C.H26X_H264_LEVEL_2_1
	H264Level2_2 H264Level = C.H26X_H264_LEVEL_2_2
	H264Level3   H264Level = C.H26X_H264_LEVEL_3
	H264Level3_1 H264Level = C.H26X_H264_LEVEL_3_1
	H264Level3_2 H264Level = C.H26X_H264_LEVEL_3_2
	H264Level4   H264Level = C.H26X_H264_LEVEL_4
	H264Level4_1 H264Level = C.H26X_H264_LEVEL_4_1
	H264Level4_2 H264Level = C.H26X_H264_LEVEL_4_2
	H264Level5   H264Level = C.H26X_H264_LEVEL_5
	H264Level5_1 H264Level = C.H26X_H264_LEVEL_5_1
	H264Level5_2 H264Level = C.H26X_H264_LEVEL_5_2
)

// An H265Profile is profile-id of H.265 (RFC 7798, 7.1).
type H265Profile uint8

// The profiles of H.265.
const (
	H265ProfileMain                              H265Profile = C.H26X_H265_MAIN
	H265ProfileMain10                            H265Profile = C.H26X_H265_MAIN_10
	H265ProfileMainStillPicture                  H265Profile = C.H26X_H265_MAIN_STILL_PICTURE
	H265ProfileFormatRangeExtensions             H265Profile = C.H26X_H265_FORMAT_RANGE_EXTENSIONS
	H265ProfileHighThroughput                    H265Profile = C.H26X_H265_HIGH_THROUGHPUT
	H265ProfileMultiviewMain                     H265Profile = C.H26X_H265_MULTIVIEW_MAIN
	H265ProfileScalableMain                      H265Profile = C.H26X_H265_SCALABLE_MAIN
	H265Profile3DMain                            H265Profile = C.H26X_H265_3D_MAIN
	H265ProfileScreenContentCoding               H265Profile = C.H26X_H265_SCREEN_CONTENT_CODING
	H265ProfileScreenContentCodingExtensions     H265Profile = C.H26X_H265_SCREEN_CONTENT_CODING_EXTENSIONS
	H265ProfileHighThroughputScreenContentCoding H265Profile = C.H26X_H265_HIGH_THROUGHPUT_SCREEN_CONTENT_CODING
)

// An H265Tier is tier-flag of H.265 (RFC 7798, 7.1).
type H265Tier uint8

// The tiers of H.265.
const (
	H265TierMain H265Tier = 0
	H265TierHigh H265Tier = 1
)

// An H265Level is level-id of H.265, so that < compares levels.
type H265Level uint8

// The levels of H.265.
const (
	H265Level1   H265Level = C.H26X_H265_LEVEL_1
	H265Level2   H265Level = C.H26X_H265_LEVEL_2
	H265Level2_1 H265Level = C.H26X_H265_LEVEL_2_1
	H265Level3   H265Level = C.H26X_H265_LEVEL_3
	H265Level3_1 H265Level = C.H26X_H265_LEVEL_3_1
	H265Level4   H265Level = C.H26X_H265_LEVEL_4
	H265Level4_1 H265Level = C.H26X_H265_LEVEL_4_1
	H265Level5   H265Level = C.H26X_H265_LEVEL_5
	H265Level5_1 H265Level = C.H26X_H265_LEVEL_5_1
	H265Level5_2 H265Level = C.H26X_H265_LEVEL_5_2
	H265Level6   H265Level = C.H26X_H265_LEVEL_6
	H265Level6_1 H265Level = C.H26X_H265_LEVEL_6_1
	H265Level6_2 H265Level = C.H26X_H265_LEVEL_6_2
)

// An H266Profile is profile-id of H.266 (RFC 9328, 7.2).
type H266Profile uint8

// The profiles of H.266.
const (
	H266ProfileMain10                           H266Profile = C.H26X_H266_MAIN_10
	H266ProfileMultilayerMain10                 H266Profile = C.H26X_H266_MULTILAYER_MAIN_10
	H266ProfileMain10_444                       H266Profile = C.H26X_H266_MAIN_10_444
	H266ProfileMultilayerMain10_444             H266Profile = C.H26X_H266_MULTILAYER_MAIN_10_444
	H266ProfileMain10StillPicture               H266Profile = C.H26X_H266_MAIN_10_STILL_PICTURE
	H266ProfileMultilayerMain10StillPicture     H266Profile = C.H26X_H266_MULTILAYER_MAIN_10_STILL_PICTURE
	H266ProfileMain10_444StillPicture           H266Profile = C.H26X_H266_MAIN_10_444_STILL_PICTURE
	H266ProfileMultilayerMain10_444StillPicture H266Profile = C.H26X_H266_MULTILAYER_MAIN_10_444_STILL_PICTURE
)

// An H266Tier is tier-flag of H.266 (RFC 9328, 7.2).
type H266Tier uint8

// The tiers of H.266.
const (
	H266TierMain H266Tier = 0
	H266TierHigh H266Tier = 1
)

// An H266Level is level-id of H.266, so that < compares levels.
type H266Level uint8

// The levels of H.266.
const (
	H266Level1    H266Level = C.H26X_H266_LEVEL_1
	H266Level2    H266Level = C.H26X_H266_LEVEL_2
	H266Level2_1  H266Level = C.H26X_H266_LEVEL_2_1
	H266Level3    H266Level = C.H26X_H266_LEVEL_3
	H266Level3_1  H266Level = C.H26X_H266_LEVEL_3_1
	H266Level4    H266Level = C.H26X_H266_LEVEL_4
	H266Level4_1  H266Level = C.H26X_H266_LEVEL_4_1
	H266Level5    H266Level = C.H26X_H266_LEVEL_5
	H266Level5_1  H266Level = C.H26X_H266_LEVEL_5_1
	H266Level5_2  H266Level = C.H26X_H266_LEVEL_5_2
	H266Level6    H266Level = C.H26X_H266_LEVEL_6
	H266Level6_1  H266Level = C.H26X_H266_LEVEL_6_1
	H266Level6_2  H266Level = C.H26X_H266_LEVEL_6_2
	H266Level6_3  H266Level = C.H26X_H266_LEVEL_6_3
	H266Level15_5 H266Level = C.H26X_H266_LEVEL_15_5
)

// An H264ProfileLevel is a profile of H.264 at a level.
type H264ProfileLevel struct {
	Profile H264Profile
	Level   H264Level
}

// ParseH264ProfileLevel tells what the three bytes of a profile-level-id of H.264 name, the lower ones of the
// number (RFC 6184, 8.1): 0x64001f is High at level 3.1. False where they name nothing.
func ParseH264ProfileLevel(profileLevelID uint32) (H264ProfileLevel, bool) {
	numbers := new([2]C.uint8_t)
	if !C.h26x_h264_profile_level(C.uint32_t(profileLevelID), &numbers[0], &numbers[1]) {
		return H264ProfileLevel{}, false
	}
	return H264ProfileLevel{H264Profile(numbers[0]), H264Level(numbers[1])}, true
}

// H264ProfileLevelFromFmtp is what the parameter profile-level-id of a format says, by six hexadecimal digits.
// False where it isn't there, is another text, or names nothing.
func H264ProfileLevelFromFmtp(params map[string]string) (H264ProfileLevel, bool) {
	id, err := hex.DecodeString(params["profile-level-id"])
	if err != nil || len(id) != 3 {
		return H264ProfileLevel{}, false
	}
	return ParseH264ProfileLevel(uint32(id[0])<<16 | uint32(id[1])<<8 | uint32(id[2]))
}

// H265IsKnown tells whether profile-id, tier-flag (0 Main, 1 High) and level-id of H.265 are all known (RFC
// 7798, 7.1). Where a format says nothing they are H265ProfileMain, 0 and H265Level3_1.
func H265IsKnown(profile H265Profile, tierFlag uint8, level H265Level) bool {
	return bool(C.h26x_h265_is_known(C.uint8_t(profile), C.uint8_t(tierFlag), C.uint8_t(level)))
}

// H266IsKnown tells whether profile-id, tier-flag (0 Main, 1 High) and level-id of H.266 are all known (RFC
// 9328, 7.2). Where a format says nothing they are H266ProfileMain10, 0 and H266Level3_1.
func H266IsKnown(profile H266Profile, tierFlag uint8, level H266Level) bool {
	return bool(C.h26x_h266_is_known(C.uint8_t(profile), C.uint8_t(tierFlag), C.uint8_t(level)))
}

// An H265ProfileTierLevel is a profile, a tier and a level of H.265.
type H265ProfileTierLevel struct {
	Profile H265Profile
	Tier    H265Tier
	Level   H265Level
}

// NewH265ProfileTierLevel is that of profile-id, tier-flag and level-id. False where H265IsKnown is.
func NewH265ProfileTierLevel(profileID, tierFlag, levelID uint8) (H265ProfileTierLevel, bool) {
	it := H265ProfileTierLevel{H265Profile(profileID), H265Tier(tierFlag), H265Level(levelID)}
	if !H265IsKnown(it.Profile, tierFlag, it.Level) {
		return H265ProfileTierLevel{}, false
	}
	return it, true
}

// H265ProfileTierLevelFromFmtp is what the parameters profile-id, tier-flag and level-id of a format say. False where
// one of them isn't there, is no number, or isn't known.
func H265ProfileTierLevelFromFmtp(params map[string]string) (H265ProfileTierLevel, bool) {
	numbers, ok := numbersIn(params)
	if !ok {
		return H265ProfileTierLevel{}, false
	}
	return NewH265ProfileTierLevel(numbers[0], numbers[1], numbers[2])
}

// An H266ProfileTierLevel is a profile, a tier and a level of H.266.
type H266ProfileTierLevel struct {
	Profile H266Profile
	Tier    H266Tier
	Level   H266Level
}

// NewH266ProfileTierLevel is that of profile-id, tier-flag and level-id. False where H266IsKnown is.
func NewH266ProfileTierLevel(profileID, tierFlag, levelID uint8) (H266ProfileTierLevel, bool) {
	it := H266ProfileTierLevel{H266Profile(profileID), H266Tier(tierFlag), H266Level(levelID)}
	if !H266IsKnown(it.Profile, tierFlag, it.Level) {
		return H266ProfileTierLevel{}, false
	}
	return it, true
}

// H266ProfileTierLevelFromFmtp is what the parameters profile-id, tier-flag and level-id of a format say. False where
// one of them isn't there, is no number, or isn't known.
func H266ProfileTierLevelFromFmtp(params map[string]string) (H266ProfileTierLevel, bool) {
	numbers, ok := numbersIn(params)
	if !ok {
		return H266ProfileTierLevel{}, false
	}
	return NewH266ProfileTierLevel(numbers[0], numbers[1], numbers[2])
}

// numbersIn is profile-id, tier-flag and level-id, each in decimal digits, behind a + if there is one.
func numbersIn(params map[string]string) (numbers [3]uint8, ok bool) {
	for i, name := range [3]string{"profile-id", "tier-flag", "level-id"} {
		number, err := strconv.ParseUint(strings.TrimPrefix(params[name], "+"), 10, 8)
		if err != nil {
			return numbers, false
		}
		numbers[i] = uint8(number)
	}
	return numbers, true
}
