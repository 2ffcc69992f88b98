"""Errors: their numbers, their words, and that they can be told apart."""

import pickle
import re
from pathlib import Path
from typing import Sequence, Type

import h26x
import pytest
from h26x import errors

HEADER = Path(__file__).parents[2] / "include" / "h26x.h"

#: The codes of h26x.h.
CODES = {
    1: h26x.ShortPacket,
    2: h26x.NaluTypeNotHandled,
    3: h26x.StapATooLong,
    4: h26x.H265Corrupted,
    5: h26x.H265PaciPhesTooLong,
    6: h26x.H266Corrupted,
    7: h26x.AvcUnitTooLong,
    8: h26x.OutOfMemory,
    9: h26x.UnknownCodec,
    10: h26x.WrongEnd,
    11: h26x.NotOfThisCodec,
    12: h26x.OutOfRange,
    13: h26x.NoRoom,
    14: h26x.NothingYet,
    15: h26x.UnitWithoutHeader,
    16: h26x.UnitForbidden,
    17: h26x.UnitOfPacketType,
    18: h26x.UnitTooLong,
    20: h26x.SdpOpenBrace,
    21: h26x.SdpNotANumber,
    22: h26x.SdpOutOfRange,
    23: h26x.SdpNotHexadecimal,
    24: h26x.SdpNotTxMode,
    25: h26x.SdpTwice,
    26: h26x.SdpUnknownName,
    27: h26x.SdpAbsent,
    28: h26x.SdpOtherKind,
    29: h26x.SdpNotBase64,
    30: h26x.SdpEmptyUnit,
    31: h26x.SdpOtherType,
    32: h26x.SdpStartCode,
    33: h26x.SdpNoSet,
    34: h26x.SdpShortSet,
    35: h26x.SdpNoProfile,
    37: h26x.SdpNoAnswer,
    38: h26x.SdpPayloadType,
    39: h26x.SdpEncodingName,
    40: h26x.SdpClockRate,
    41: h26x.SdpNoBraces,
    42: h26x.SdpNoTool,
    43: h26x.SdpSegmentation,
    44: h26x.SdpLimits,
    45: h26x.SdpNoLimit,
    46: h26x.SdpConstraintsNotBase64,
    47: h26x.SdpShortConstraints,
    48: h26x.SdpLongConstraints,
    49: h26x.SdpNotAValue,
    50: h26x.RtpTooShort,
    51: h26x.RtpOtherVersion,
    52: h26x.RtpCsrcsPastTheEnd,
    53: h26x.RtpExtensionPastTheEnd,
    54: h26x.RtpPaddingOfZero,
    55: h26x.RtpPaddingTooLong,
    56: h26x.RtpPayloadType,
    57: h26x.RtpCsrcs,
    58: h26x.RtpExtension,
    59: h26x.RtpPadding,
    60: h26x.RtxNoOriginal,
    61: h26x.RedHeadersPastTheEnd,
    62: h26x.RedBlocksPastTheEnd,
    63: h26x.SdpNoApt,
    64: h26x.SdpRuleProfile,
    65: h26x.SdpRuleLevel,
    66: h26x.SdpRuleHighestLevel,
    67: h26x.SdpRuleBelowLevel,
    68: h26x.SdpRuleReordering,
    69: h26x.SdpRuleOutOfOrder,
    70: h26x.SdpRuleAboveLevel,
    71: h26x.SdpRuleAspectRatios,
    72: h26x.SdpRuleInBandSets,
    73: h26x.SdpRuleHashTypes,
    74: h26x.SdpNoLevelSets,
    75: h26x.RtpNoElement,
    76: h26x.RtpElementPastTheEnd,
}


@pytest.mark.parametrize("code", CODES)
def test_each_code_is_an_error_of_its_own(code: int) -> None:
    error = errors.error_of(code, 31, 7)
    assert type(error) is CODES[code] and error.code == code
    assert isinstance(error, h26x.PacketError) == (code <= 7)
    again = pickle.loads(pickle.dumps(error))
    assert (type(again), again.first, again.second) == (type(error), 31, 7)
    with pytest.raises(CODES[code]):
        errors.check(code)


def test_each_has_words_of_its_own() -> None:
    assert len({str(errors.error_of(code)) for code in CODES}) == len(CODES)
    assert str(errors.error_of(8)) == "out of memory"
    assert isinstance(errors.error_of(8), MemoryError)
    text = "an H.264 packet of this type is not handled (type 31)"
    assert str(errors.error_of(2, 31)) == text
    assert str(errors.error_of(3, 5, 2)).endswith("(5 bytes, where 2 are left)")
    assert str(errors.error_of(13, 2, 12)).endswith("(2 packets, 12 bytes)")
    assert str(errors.error_of(13, 0, 12)).endswith(" (12 bytes)")
    assert str(errors.error_of(20)) == "a brace is left open"
    assert str(errors.error_of(25, 2)) == "the parameter is given twice (parameter 2)"
    assert str(errors.error_of(29, 1)) == "the unit is no base64 (unit 1)"
    assert str(errors.error_of(40)) == "the clock rate is not 90000"
    assert str(errors.error_of(41)) == "the capability points are not in braces"
    assert str(errors.error_of(45, 2)) == "the capability point has no limit (point 2)"
    text = "the limits of the capability point are refused (point 1, the parameter is given twice)"
    assert str(errors.error_of(44, 1, 25)) == text


@pytest.mark.parametrize(
    "kind, codes",
    [
        (h26x.ParametersError, range(20, 26)),
        (h26x.UnitsError, range(29, 33)),
        (h26x.StreamError, range(33, 36)),
        (h26x.RtpMapError, range(38, 41)),
        (h26x.CapabilityPointsError, range(41, 46)),
        (h26x.ConstraintsError, range(46, 49)),
        (h26x.RtpError, range(50, 56)),
        (h26x.RtpWriteError, range(56, 60)),
        (h26x.RedError, range(61, 63)),
        (h26x.BrokenRule, range(64, 74)),
    ],
)
def test_errors_of_a_kind(kind: Type[h26x.Error], codes: Sequence[int]) -> None:
    assert [code for code in CODES if isinstance(errors.error_of(code), kind)] == list(codes)
    assert issubclass(kind, ValueError)


def test_none() -> None:
    errors.check(0)


def test_codes_are_those_of_the_header() -> None:
    if not HEADER.is_file():
        pytest.skip("the header lies beside the package in its repository")
    found = re.search(r"enum h26x_code {(.*?)};", HEADER.read_text(), re.S)
    assert found is not None
    names = {int(n): name for name, n in re.findall(r"H26X_(\w+) = (\d+)", found[1])}
    assert names.pop(0) == "OK" and names.keys() == CODES.keys()
    for code, error in CODES.items():
        assert error.__name__.upper() == names[code].replace("_", "")
