"""Profiles and levels (RFC 6184, 8.1; RFC 7798, 7.1; RFC 9328, 7.2)."""

import re
from enum import IntEnum
from pathlib import Path
from typing import Callable, Dict, Optional, Tuple, Type

import pytest
from h26x import (
    Codec,
    H264Level,
    H264Profile,
    H264ProfileLevel,
    H265Level,
    H265Profile,
    H265ProfileTierLevel,
    H265Tier,
    H266Level,
    H266Profile,
    H266ProfileTierLevel,
    H266Tier,
    Kind,
    Outcome,
    h264_profile_level,
    h265_is_known,
    h266_is_known,
)

HEADER = Path(__file__).parents[2] / "include" / "h26x.h"


def test_h264() -> None:
    for number, profile, level in (
        (0x42001F, H264Profile.BASELINE, H264Level.LEVEL_3_1),
        (0x42E01F, H264Profile.CONSTRAINED_BASELINE, H264Level.LEVEL_3_1),
        (0x4D0028, H264Profile.MAIN, H264Level.LEVEL_4),
        (0x58001E, H264Profile.EXTENDED, H264Level.LEVEL_3),
        (0x64001F, H264Profile.HIGH, H264Level.LEVEL_3_1),
        (0xFF64001F, H264Profile.HIGH, H264Level.LEVEL_3_1),
        (0x640C34, H264Profile.CONSTRAINED_HIGH, H264Level.LEVEL_5_2),
        (0x6E0032, H264Profile.HIGH_10, H264Level.LEVEL_5),
        (0xF41016, H264Profile.HIGH_444_INTRA, H264Level.LEVEL_2_2),
        (0x42100B, H264Profile.BASELINE, H264Level.LEVEL_1B),
        (0x42000B, H264Profile.BASELINE, H264Level.LEVEL_1_1),
    ):
        assert h264_profile_level(number) == (profile, level)
    for number in (0x64101F, 0x640063, 0x63001F, 0x2C001F, 0x42011F, 0):
        assert h264_profile_level(number) is None
    for number in (-1, 2**32):
        with pytest.raises(ValueError):
            h264_profile_level(number)


@pytest.mark.parametrize(
    "digits, wanted",
    [
        ("42e01f", (H264Profile.CONSTRAINED_BASELINE, H264Level.LEVEL_3_1)),
        ("640C1F", (H264Profile.CONSTRAINED_HIGH, H264Level.LEVEL_3_1)),
        ("42100b", (H264Profile.BASELINE, H264Level.LEVEL_1B)),
        ("", None),
        ("42e01", None),
        ("0042e01f", None),
        ("42e01f00", None),
        ("42e01g", None),
        (" 42e01f", None),
        ("42e01f\n", None),
        ("0x42e0", None),
        ("63001f", None),
        ("640063", None),
    ],
)
def test_h264_of_parameters(digits: str, wanted: Optional[Tuple[H264Profile, H264Level]]) -> None:
    params = {"packetization-mode": "1", "profile-level-id": digits}
    assert H264ProfileLevel.from_fmtp(params) == wanted
    assert H264ProfileLevel.from_fmtp({"packetization-mode": "1"}) is None


MAIN_265 = (H265Profile.MAIN, H265Tier.MAIN, H265Level.LEVEL_3_1)
HIGH_265 = (H265Profile.MAIN_10, H265Tier.HIGH, H265Level.LEVEL_6_2)
MAIN_266 = (H266Profile.MAIN_10, H266Tier.MAIN, H266Level.LEVEL_3_1)
HIGH_266 = (H266Profile.MAIN_10_444, H266Tier.HIGH, H266Level.LEVEL_15_5)


@pytest.mark.parametrize(
    "profile_id, tier_flag, level_id, h265, h266",
    [
        ("1", "0", "93", MAIN_265, None),
        ("2", "1", "186", HIGH_265, None),
        ("1", "0", "51", None, MAIN_266),
        ("+33", "01", "255", None, HIGH_266),
        ("0" * 10000 + "2", "1", "186", HIGH_265, None),
        ("99", "0", "93", None, None),
        ("1", "5", "93", None, None),
        ("1", "2", "51", None, None),
        ("1", "0", "256", None, None),
        ("257", "0", "93", None, None),
        ("1" * 10000, "0", "93", None, None),
        ("1", "", "93", None, None),
        ("1", "-0", "93", None, None),
        (" 1", "0", "93", None, None),
        ("++1", "0", "93", None, None),
        ("1_0", "0", "93", None, None),
        ("\u0661", "0", "93", None, None),
    ],
)
def test_profiles_of_parameters(
    profile_id: str,
    tier_flag: str,
    level_id: str,
    h265: Optional[Tuple[H265Profile, H265Tier, H265Level]],
    h266: Optional[Tuple[H266Profile, H266Tier, H266Level]],
) -> None:
    params = {"x": "1", "profile-id": profile_id, "tier-flag": tier_flag, "level-id": level_id}
    assert H265ProfileTierLevel.from_fmtp(params) == h265
    assert H266ProfileTierLevel.from_fmtp(params) == h266
    for name in ("profile-id", "tier-flag", "level-id"):
        without = {other: value for other, value in params.items() if other != name}
        assert H265ProfileTierLevel.from_fmtp(without) is None
        assert H266ProfileTierLevel.from_fmtp(without) is None


def test_profiles_by_their_numbers() -> None:
    high = H265ProfileTierLevel.new(2, 1, 186)
    assert high == HIGH_265 and high is not None and high.level > H265Level.LEVEL_6_1
    assert H266ProfileTierLevel.new(33, 1, 255) == HIGH_266
    for numbers in [(1, 0, 255), (99, 0, 93), (1, 5, 93), (1, 0, 51), (0, 0, 93), (-1, 0, 93)]:
        assert H265ProfileTierLevel.new(*numbers) is None
    for numbers in [(1, 0, 93), (2, 0, 51), (1, 2, 51), (0, 0, 51), (1, 0, 0), (257, 0, 51)]:
        assert H266ProfileTierLevel.new(*numbers) is None


def test_the_order_of_levels() -> None:
    """From the lowest to the highest (Annex A of each standard); level 1b is between 1 and 1.1."""
    h264 = "1 1B 1_1 1_2 1_3 2 2_1 2_2 3 3_1 3_2 4 4_1 4_2 5 5_1 5_2"
    h265 = "1 2 2_1 3 3_1 4 4_1 5 5_1 5_2 6 6_1 6_2"
    h266 = h265 + " 6_3 15_5"
    kinds: "tuple[tuple[Type[IntEnum], str], ...]"
    kinds = ((H264Level, h264), (H265Level, h265), (H266Level, h266))
    for kind, levels in kinds:
        wanted = [kind["LEVEL_" + level] for level in levels.split()]
        assert sorted(kind) == wanted and len(wanted) == len(kind)
        assert all(a < b for a, b in zip(wanted, wanted[1:]))


@pytest.mark.parametrize(
    "is_known, profiles, levels, level, count",
    [
        (h265_is_known, H265Profile, H265Level, 93, (11, 13)),
        (h266_is_known, H266Profile, H266Level, 51, (8, 15)),
    ],
)
def test_known_numbers(
    is_known: Callable[[int, int, int], bool],
    profiles: Type[IntEnum],
    levels: Type[IntEnum],
    level: int,
    count: "tuple[int, int]",
) -> None:
    # Numbers that fit no byte are not cut off to one that is known.
    numbers = range(-300, 600)
    assert [n for n in numbers if is_known(n, 0, level)] == sorted(profiles)
    assert [n for n in numbers if is_known(1, n, level)] == [0, 1]
    assert [n for n in numbers if is_known(1, 0, n)] == sorted(levels)
    assert (len(profiles), len(levels)) == count


@pytest.mark.parametrize(
    "name, enum",
    [
        ("codec", Codec),
        ("received", Outcome),
        ("h264_profile", H264Profile),
        ("h264_level", H264Level),
        ("h265_kind", Kind),
        ("h265_profile", H265Profile),
        ("h265_level", H265Level),
        ("h266_profile", H266Profile),
        ("h266_level", H266Level),
    ],
)
def test_names_are_those_of_the_header(name: str, enum: Type[IntEnum]) -> None:
    if not HEADER.is_file():
        pytest.skip("the header lies beside the package in its repository")
    found = re.search(rf"enum h26x_{name} {{(.*?)}};", HEADER.read_text(), re.S)
    assert found is not None
    wanted: Dict[str, int] = {}
    for member, number in re.findall(r"H26X_(\w+) = (\d+)", found[1]):
        wanted[member] = int(number)
    codec = name.split("_")[0].upper() + "_"
    assert wanted == {
        next(n for n in wanted if n in (m.name, codec + m.name.replace("THREE_D", "3D"))): m
        for m in enum
    }
