"""Profiles and levels, as SDP names them."""

from __future__ import annotations

import re
from ctypes import byref, c_uint8
from enum import IntEnum
from operator import index
from typing import Any, List, Mapping, NamedTuple, Optional

from ._library import library
from ._memory import number


class H264Profile(IntEnum):
    """The profiles of H.264 (RFC 6184, 8.1)."""

    BASELINE = 0
    CONSTRAINED_BASELINE = 1
    MAIN = 2
    EXTENDED = 3
    HIGH = 4
    CONSTRAINED_HIGH = 5
    HIGH_10 = 6
    HIGH_422 = 7
    HIGH_444_PREDICTIVE = 8
    HIGH_10_INTRA = 9
    HIGH_422_INTRA = 10
    HIGH_444_INTRA = 11
    CAVLC_444_INTRA = 12


class H264Level(IntEnum):
    """The levels of H.264 by their places, so that `<` compares them."""

    LEVEL_1 = 0
    LEVEL_1B = 1
    LEVEL_1_1 = 2
    LEVEL_1_2 = 3
    LEVEL_1_3 = 4
    LEVEL_2 = 5
    LEVEL_2_1 = 6
    LEVEL_2_2 = 7
    LEVEL_3 = 8
    LEVEL_3_1 = 9
    LEVEL_3_2 = 10
    LEVEL_4 = 11
    LEVEL_4_1 = 12
    LEVEL_4_2 = 13
    LEVEL_5 = 14
    LEVEL_5_1 = 15
    LEVEL_5_2 = 16


class H265Profile(IntEnum):
    """`profile-id` of H.265 (RFC 7798, 7.1)."""

    MAIN = 1
    MAIN_10 = 2
    MAIN_STILL_PICTURE = 3
    FORMAT_RANGE_EXTENSIONS = 4
    HIGH_THROUGHPUT = 5
    MULTIVIEW_MAIN = 6
    SCALABLE_MAIN = 7
    # A name can't begin with a digit: this is H26X_H265_3D_MAIN.
    THREE_D_MAIN = 8
    SCREEN_CONTENT_CODING = 9
    SCREEN_CONTENT_CODING_EXTENSIONS = 10
    HIGH_THROUGHPUT_SCREEN_CONTENT_CODING = 11


class H265Tier(IntEnum):
    """`tier-flag` of H.265 (RFC 7798, 7.1)."""

    MAIN = 0
    HIGH = 1


class H265Level(IntEnum):
    """`level-id` of H.265, so that `<` compares levels."""

    LEVEL_1 = 30
    LEVEL_2 = 60
    LEVEL_2_1 = 63
    LEVEL_3 = 90
    LEVEL_3_1 = 93
    LEVEL_4 = 120
    LEVEL_4_1 = 123
    LEVEL_5 = 150
    LEVEL_5_1 = 153
    LEVEL_5_2 = 156
    LEVEL_6 = 180
    LEVEL_6_1 = 183
    LEVEL_6_2 = 186


class H266Profile(IntEnum):
    """`profile-id` of H.266 (RFC 9328, 7.2)."""

    MAIN_10 = 1
    MULTILAYER_MAIN_10 = 17
    MAIN_10_444 = 33
    MULTILAYER_MAIN_10_444 = 49
    MAIN_10_STILL_PICTURE = 65
    MULTILAYER_MAIN_10_STILL_PICTURE = 81
    MAIN_10_444_STILL_PICTURE = 97
    MULTILAYER_MAIN_10_444_STILL_PICTURE = 113


class H266Tier(IntEnum):
    """`tier-flag` of H.266 (RFC 9328, 7.2)."""

    MAIN = 0
    HIGH = 1


class H266Level(IntEnum):
    """`level-id` of H.266, so that `<` compares levels."""

    LEVEL_1 = 16
    LEVEL_2 = 32
    LEVEL_2_1 = 35
    LEVEL_3 = 48
    LEVEL_3_1 = 51
    LEVEL_4 = 64
    LEVEL_4_1 = 67
    LEVEL_5 = 80
    LEVEL_5_1 = 83
    LEVEL_5_2 = 86
    LEVEL_6 = 96
    LEVEL_6_1 = 99
    LEVEL_6_2 = 102
    LEVEL_6_3 = 105
    LEVEL_15_5 = 255


class H264ProfileLevel(NamedTuple):
    """A profile of H.264 at a level."""

    profile: H264Profile
    level: H264Level

    @classmethod
    def from_fmtp(cls, params: Mapping[str, str]) -> Optional[H264ProfileLevel]:
        """What the parameter `profile-level-id` of a format says, by six hexadecimal digits; None where it
        isn't there, is another text, or names nothing (RFC 6184, 8.1)."""
        digits = params.get("profile-level-id", "")
        if re.fullmatch("[0-9A-Fa-f]{6}", digits) is None:
            return None
        return h264_profile_level(int(digits, 16))


class H265ProfileTierLevel(NamedTuple):
    """A profile, a tier and a level of H.265.

    >>> params = {"profile-id": "1", "tier-flag": "0", "level-id": "93"}
    >>> main = H265ProfileTierLevel.from_fmtp(params)
    >>> main.profile, main.level < H265Level.LEVEL_4
    (<H265Profile.MAIN: 1>, True)
    """

    profile: H265Profile
    tier: H265Tier
    level: H265Level

    @classmethod
    def new(cls, profile_id: int, tier_flag: int, level_id: int) -> Optional[H265ProfileTierLevel]:
        """That of the three numbers; None where `h265_is_known` says no."""
        if not h265_is_known(profile_id, tier_flag, level_id):
            return None
        return cls(H265Profile(profile_id), H265Tier(tier_flag), H265Level(level_id))

    @classmethod
    def from_fmtp(cls, params: Mapping[str, str]) -> Optional[H265ProfileTierLevel]:
        """What the parameters `profile-id`, `tier-flag` and `level-id` of a format say; None where one of
        them isn't there, is no number, or isn't known (RFC 7798, 7.1)."""
        numbers = _numbers_in(params)
        return None if numbers is None else cls.new(*numbers)


class H266ProfileTierLevel(NamedTuple):
    """A profile, a tier and a level of H.266."""

    profile: H266Profile
    tier: H266Tier
    level: H266Level

    @classmethod
    def new(cls, profile_id: int, tier_flag: int, level_id: int) -> Optional[H266ProfileTierLevel]:
        """That of the three numbers; None where `h266_is_known` says no."""
        if not h266_is_known(profile_id, tier_flag, level_id):
            return None
        return cls(H266Profile(profile_id), H266Tier(tier_flag), H266Level(level_id))

    @classmethod
    def from_fmtp(cls, params: Mapping[str, str]) -> Optional[H266ProfileTierLevel]:
        """What the parameters `profile-id`, `tier-flag` and `level-id` of a format say; None where one of
        them isn't there, is no number, or isn't known (RFC 9328, 7.2)."""
        numbers = _numbers_in(params)
        return None if numbers is None else cls.new(*numbers)


def _numbers_in(params: Mapping[str, str]) -> Optional[List[int]]:
    """`profile-id`, `tier-flag` and `level-id`, each in decimal digits, behind a + if there is one."""
    numbers = []
    for name in ("profile-id", "tier-flag", "level-id"):
        found = re.fullmatch(r"\+?0*([0-9]{1,3})", params.get(name, ""))
        if found is None:
            return None
        numbers.append(int(found[1]))
    return numbers


def h264_profile_level(profile_level_id: int) -> Optional[H264ProfileLevel]:
    """What the three bytes of a `profile-level-id` of H.264 name, the lower ones of the number (RFC
    6184, 8.1); None where they name nothing.

    >>> h264_profile_level(int("64001f", 16))
    H264ProfileLevel(profile=<H264Profile.HIGH: 4>, level=<H264Level.LEVEL_3_1: 9>)
    """
    asked = number("profile_level_id", profile_level_id, 0xFFFFFFFF)
    profile, level = c_uint8(), c_uint8()
    if not library.h26x_h264_profile_level(asked, byref(profile), byref(level)):
        return None
    return H264ProfileLevel(H264Profile(profile.value), H264Level(level.value))


def h265_is_known(profile_id: int, tier_flag: int, level_id: int) -> bool:
    """Whether `profile-id`, `tier-flag` (0 Main, 1 High) and `level-id` of H.265 are all known (RFC
    7798, 7.1). Where a format says nothing they are 1, 0 and 93."""
    return _is_known(library.h26x_h265_is_known, profile_id, tier_flag, level_id)


def h266_is_known(profile_id: int, tier_flag: int, level_id: int) -> bool:
    """Whether `profile-id`, `tier-flag` (0 Main, 1 High) and `level-id` of H.266 are all known (RFC
    9328, 7.2). Where a format says nothing they are 1, 0 and 51."""
    return _is_known(library.h26x_h266_is_known, profile_id, tier_flag, level_id)


def _is_known(call: Any, *numbers: int) -> bool:
    """Whether all fit a byte, and the library knows them."""
    return all(0 <= index(one) <= 255 for one in numbers) and bool(call(*numbers))
