"""Calls on packets and payloads."""

from typing import Any, Callable, List

import pytest
from digits import many, some
from h26x import (
    Codec,
    Depacketizer,
    UnknownCodec,
    begins_keyframe,
    detect_h264_nalu,
    detect_keyframe,
    is_partition_head,
    is_partition_tail,
    is_plain_unit,
    out_size_hint,
    set_lowest_header,
    units,
)

H264, H265, H266 = Codec.H264, Codec.H265, Codec.H266


@pytest.mark.parametrize(
    "codec, heads, others",
    [
        (H264, "0100|7c85", "65|1c40"),
        (H265, "8001|620193", "6201|620113"),
        (H266, "0009|00e987", "00|00e947"),
    ],
)
def test_heads(codec: Codec, heads: str, others: str) -> None:
    assert all(is_partition_head(codec, packet) for packet in many(heads))
    assert not any(is_partition_head(codec, packet) for packet in [b"", *many(others)])


@pytest.mark.parametrize(
    "codec, marker, packet, is_tail",
    [
        (H264, True, "7c05", True),
        (H264, False, "7c45", False),
        (H265, True, "0201", True),
        (H265, True, "620113aa", False),
        (H265, False, "620153", True),
        (H265, False, "0201", False),
        (H266, True, "0009", True),
        (H266, True, "00e907aa", False),
        (H266, False, "00e947", True),
        (H264, True, "", True),
        (H265, True, "", False),
        (H266, True, "", False),
    ],
)
def test_tails(codec: Codec, marker: bool, packet: str, is_tail: bool) -> None:
    assert is_partition_tail(codec, marker, some(packet)) is is_tail


@pytest.mark.parametrize(
    "codec, keyframes, others",
    [
        (H264, "7c850000|18 0002 67aa 0002 65bb", "7c050000|7c"),
        (H265, "620193aa|6001 0003 0201aa 0003 2601af", "620113aa|2c01aa"),
        (H266, "00e987aa|0049aa", "00e907aa|0051aa"),
    ],
)
def test_keyframes(codec: Codec, keyframes: str, others: str) -> None:
    assert all(detect_keyframe(codec, packet) for packet in many(keyframes))
    assert not any(detect_keyframe(codec, packet) for packet in [b"", *many(others)])


@pytest.mark.parametrize(
    "codec, keyframes, others",
    [
        (H264, "7c850000|18 0002 67aa 0002 65bb", "7c050000|18 0002 67aa 0002 41bb"),
        (
            H265,
            "62019307aaaa|6001 0007 0003 0201aa 00 0003 2601af",
            "6001 0007 0003 0201aa 26 0003 0201af|6001 0003 0201aa 0003 2601af",
        ),
        (
            H266,
            "00e98707aaaa|00e1 0007 0003 0079aa 0003 0041af",
            "00e1 0007 0003 0079aa 0003 0001af|00e1 0003 0079aa 0003 0041af",
        ),
    ],
)
def test_keyframes_that_begin(codec: Codec, keyframes: str, others: str) -> None:
    """In aggregates with numbers too: RFC 7798, 4.4.2 has a DONL and a DOND, RFC 9328, 4.3.2 a DONL."""
    assert all(begins_keyframe(codec, packet, donl=True) for packet in many(keyframes))
    assert not any(begins_keyframe(codec, packet, donl=True) for packet in [b"", *many(others)])
    assert begins_keyframe(H265, some("6001 0003 0201aa 0003 2601af"))


def test_types_of_h264() -> None:
    packet = some("18 0002 67aa 0002 68bb")
    assert detect_h264_nalu(packet, 7) and not detect_h264_nalu(packet, 5)
    assert detect_h264_nalu(some("6742"), 7) and not detect_h264_nalu(b"", 0)
    with pytest.raises(ValueError):
        detect_h264_nalu(packet, 256 + 7)


SETS = "600b 0002 4001 0002 4201 0002 4401"


@pytest.mark.parametrize(
    "codec, donl, packet, wanted",
    [
        # RFC 7798, 4.4.2: the layer and the temporal id are the lowest of the units, and F is set where one
        # has it.
        (H265, False, SETS, "6001 0002 4001 0002 4201 0002 4401"),
        (H265, True, "6000 0009 0002 430b 00 0002 c512", "e10a 0009 0002 430b 00 0002 c512"),
        # What is no aggregate of H.265 stays.
        (H265, True, SETS, SETS),
        (H265, False, "600b 0002 4001 00", "600b 0002 4001 00"),
        (H265, False, "020b 0002 4001 0002 4201", "020b 0002 4001 0002 4201"),
        (H265, False, "", ""),
        (H264, False, SETS, SETS),
        (H266, False, SETS, SETS),
    ],
)
def test_lowest_headers(codec: Codec, donl: bool, packet: str, wanted: str) -> None:
    memory = bytearray(some("ee") + some(packet) + some("ee"))
    with memoryview(memory) as view:
        set_lowest_header(codec, view[1:-1], donl=donl)
    assert memory == some("ee") + some(wanted) + some("ee")
    # It is the caller's again, and can be made larger.
    alone = bytearray(some(packet))
    set_lowest_header(codec, alone, donl=donl)
    alone.extend(b"\xee")
    assert alone == some(wanted) + b"\xee"


@pytest.mark.parametrize("packet", [some(SETS), memoryview(some(SETS)), memoryview(bytearray(28))[::2]])
def test_a_header_that_cant_be_written(packet: bytearray) -> None:
    before = bytes(packet)
    with pytest.raises(TypeError):
        set_lowest_header(H265, packet)
    assert bytes(packet) == before


@pytest.mark.parametrize(
    "codec, payload, found",
    [
        (H264, "bb 000001 aa 00000000 01 000001 bb00", "aa|bb00"),
        (H265, "bb 000001 aa 00000000 01 000001 bb00", "aa|bb00"),
        # Zeros before the nearest three stay with the unit.
        (H266, "bb 000001 aa 00000000 01 000001 bb00", "aa00|bb00"),
        (H264, "bb00", "bb00"),
        (H265, "", ""),
        (H266, "000001", ""),
        (H264, "000001 aa 000001 aa 000001 aa", "aa|aa|aa"),
    ],
)
def test_units(codec: Codec, payload: str, found: str) -> None:
    assert list(units(codec, some(payload))) == many(found)


def test_units_are_those_of_when_they_were_asked_for() -> None:
    payload = bytearray(some("000001 aa 000001 bb"))
    left = units(H264, payload)
    payload[3] = 0xCC
    assert next(left) == b"\xaa"
    payload.clear()
    assert list(left) == [b"\xbb"]


@pytest.mark.parametrize(
    "codec, plain, others",
    [
        (H264, "01|77|6588|41 0000 02|41 0000 03 01|0900aa", "81|6088|78 0001 65|7c85aa|1f"),
        (H264, "65", "41aa 000001 6588|41aa 00000001 6588|41 000001|41 000000 02|4100|41aa 0000"),
        (H265, "0001|5fff|4201aa|2801 0000 03", "26|8001aa|6001aa|620193aa|6401aa|7e01"),
        (H265, "2601", "2601 000001 26|2601 000000 02|260100"),
        (H266, "0001|3fdf|0079aa|0009 0000 02", "00|8001aa|4001aa|00e1aa|00e987aa|00f9"),
        (H266, "0041", "0041 000001 41|0041 000000 02|004100"),
    ],
)
def test_plain_units(codec: Codec, plain: str, others: str) -> None:
    assert all(is_plain_unit(codec, unit) for unit in many(plain))
    assert not any(is_plain_unit(codec, unit) for unit in [b"", *many(others)])


def test_a_unit_in_a_unit() -> None:
    """Behind lengths it is one unit, and not plain."""
    with Depacketizer(H264, avc=True) as depacketizer:
        written = depacketizer.depacketize(some("41aa 00000001 6588")).data
    assert written == some("00000008 41aa 00000001 6588")
    assert not is_plain_unit(H264, written[4:])


def test_unknown_codecs() -> None:
    calls: List[Callable[[], Any]] = [
        lambda: is_partition_head(0, b"\1\0"),
        lambda: is_partition_tail(263, True, b"\1\0"),
        lambda: detect_keyframe(2**32 + 264, b"\x65"),
        lambda: begins_keyframe(267, b"\x65"),
        lambda: units(1, b"\x65"),
        lambda: is_plain_unit(0, b"\x65"),
        lambda: set_lowest_header(7, bytearray(some(SETS))),
    ]
    for call in calls:
        with pytest.raises(UnknownCodec):
            call()


def test_the_hint_is_no_bound() -> None:
    assert [out_size_hint(size) for size in (0, 1199, 1200, 5000)] == [4, 1203, 1208, 5020]
    assert out_size_hint(2**64 - 1) == 2**64 - 1
    with pytest.raises(ValueError):
        out_size_hint(2**64)
