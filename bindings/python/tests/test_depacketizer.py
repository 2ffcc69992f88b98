"""Receiving without sequence numbers: units as the RFCs have them, refusals, lengths."""

from typing import Optional, Type

import pytest
from digits import FRAGMENTS, some
from h26x import (
    Codec,
    Depacketizer,
    H265Corrupted,
    H266Corrupted,
    NaluTypeNotHandled,
    NotOfThisCodec,
    PacketError,
    ShortPacket,
    StapATooLong,
    UnknownCodec,
)
from rfc import annex_b, behind_lengths


def takes(
    depacketizer: Depacketizer, packet: str, units: str, keyframe: Optional[bool]
) -> None:
    """Gives a packet, and compares what it completes."""
    assert depacketizer.depacketize(some(packet)) == (some(units), keyframe)


def refuses(
    depacketizer: Depacketizer, packet: str, error: Type[PacketError], *numbers: int
) -> None:
    """Gives a packet that is refused, and compares the error."""
    with pytest.raises(error) as why:
        depacketizer.depacketize(some(packet))
    assert type(why.value) is error
    assert (why.value.first, why.value.second) == (numbers or (0, 0))


def test_h264() -> None:
    depacketizer = Depacketizer(Codec.H264)
    takes(depacketizer, "909090", "00000001 909090", False)
    takes(depacketizer, "85", "00000001 85", True)
    takes(depacketizer, "78 0003 070001 0003 080203", "00000001 070001 00000001 080203", False)
    takes(depacketizer, "78 0000 0002 65aa", "00000001 65aa", True)
    takes(depacketizer, "180000", "", None)
    takes(depacketizer, "7c4503", "", None)
    takes(depacketizer, "7c8501", "", None)
    takes(depacketizer, "61ff", "00000001 61ff", False)
    refuses(depacketizer, "", ShortPacket)
    refuses(depacketizer, "7c", ShortPacket)
    refuses(depacketizer, "ff0000", NaluTypeNotHandled, 31, 0)
    refuses(depacketizer, "78 0002 67aa 0005 681a", StapATooLong, 5, 2)
    # The open unit is the same as before.
    takes(depacketizer, "7c4502", "00000001 650102", True)


@pytest.mark.parametrize("kind", [0, 25, 26, 27, 29, 30, 31])
def test_types_of_h264_that_arent_read(kind: int) -> None:
    with pytest.raises(NaluTypeNotHandled) as why:
        Depacketizer(Codec.H264).depacketize(bytes([0x60 | kind, 1, 2, 3]))
    assert why.value.type == kind and f"type {kind}" in str(why.value)


def test_h265() -> None:
    depacketizer = Depacketizer(Codec.H265)
    two = "00000001 0201aa 00000001 0201"
    takes(depacketizer, "6001 0003 0201aa 0002 0201 0009 02", two, False)
    takes(depacketizer, "6401 2638 112233 aa", "00000001 2601aa", True)
    takes(depacketizer, "6001 0000 0000", "00000001 00000001", None)
    takes(depacketizer, "620193aa", "", None)
    refuses(depacketizer, "620193", ShortPacket)
    refuses(depacketizer, "2601", ShortPacket)
    refuses(depacketizer, "e20193aa", H265Corrupted)
    takes(depacketizer, "620153bb", "00000001 2601aabb", True)
    depacketizer.donl = True
    refuses(depacketizer, "02010005", ShortPacket)
    takes(depacketizer, "02010005aa", "00000001 0201aa", False)
    takes(depacketizer, "6201930007aa", "", None)
    depacketizer.donl = False
    takes(depacketizer, "620153bb", "00000001 2601aabb", True)


def test_h266() -> None:
    depacketizer = Depacketizer(Codec.H266, donl=True)
    takes(depacketizer, "00390002dd", "00000001 0039dd", True)
    two = "00000001 0079bb 00000001 0081cc"
    takes(depacketizer, "00e1 0000 0003 0079bb 0003 0081cc", two, False)
    depacketizer.donl = False
    takes(depacketizer, "00e987aa", "", None)
    refuses(depacketizer, "00e1 0003 0001aa", ShortPacket)
    refuses(depacketizer, "800193afaf", H266Corrupted)
    refuses(depacketizer, "00e1 0003 0009aa 0002 00e1", H266Corrupted)
    takes(depacketizer, "00e947bb", "00000001 0039aabb", True)


@pytest.mark.parametrize("data", [b"", bytearray(), memoryview(b"")])
def test_packets_without_bytes(codec: Codec, data: bytes) -> None:
    with pytest.raises(ShortPacket):
        Depacketizer(codec).depacketize(data)


@pytest.mark.parametrize("avc", [False, True])
def test_fragments(codec: Codec, avc: bool) -> None:
    fragments, form = FRAGMENTS[codec], behind_lengths if avc else annex_b
    with Depacketizer(codec, avc=avc) as depacketizer:
        assert depacketizer.avc is avc and not depacketizer.donl
        assert depacketizer.depacketize(fragments.start) == (b"", None)
        assert depacketizer.depacketize(fragments.middle) == (b"", None)
        assert depacketizer.depacketize(fragments.end) == (form([fragments.unit]), True)


def test_lengths_of_aggregated_units() -> None:
    for codec, packet, units in (
        (Codec.H264, "78 0002 6742 0001 68", "00000002 6742 00000001 68"),
        (Codec.H265, "6001 0003 0201aa 0002 0201", "00000003 0201aa 00000002 0201"),
        (Codec.H266, "00e1 0003 0001aa 0003 0001bb", "00000003 0001aa 00000003 0001bb"),
    ):
        depacketizer = Depacketizer(codec, avc=True)
        takes(depacketizer, packet, units, False)
        depacketizer.avc = False
        assert depacketizer.depacketize(some(packet)).data[:4] == some("00000001")


def test_a_form_is_that_of_the_last_fragment(codec: Codec) -> None:
    fragments, depacketizer = FRAGMENTS[codec], Depacketizer(codec)
    depacketizer.depacketize(fragments.start)
    depacketizer.avc = True
    units = behind_lengths([fragments.unit[:-4] + fragments.unit[-2:]])
    # The middle one is missing, and nothing says so.
    assert depacketizer.depacketize(fragments.end).data == units


def test_a_long_unit() -> None:
    """It is longer than any packet, so it comes behind the call that completes it."""
    depacketizer, data = Depacketizer(Codec.H264), bytes(range(256)) * 4
    depacketizer.depacketize(some("7c85") + data)
    for _ in range(200):
        depacketizer.depacketize(some("7c05") + data)
    unit = some("65") + data * 201 + b"\x09"
    assert depacketizer.depacketize(some("7c4509")) == (annex_b([unit]), True)
    takes(depacketizer, "61ff", "00000001 61ff", False)


def test_an_open_unit_is_given_up(codec: Codec) -> None:
    fragments, depacketizer = FRAGMENTS[codec], Depacketizer(codec)
    depacketizer.depacketize(fragments.start)
    depacketizer.give_up_run()
    assert depacketizer.depacketize(fragments.middle) == (b"", None)
    assert depacketizer.depacketize(fragments.end) == (b"", None)


def test_copies(codec: Codec) -> None:
    fragments, depacketizer = FRAGMENTS[codec], Depacketizer(codec, avc=True)
    depacketizer.depacketize(fragments.start)
    depacketizer.depacketize(fragments.middle)
    copy = depacketizer.copy()
    assert copy == depacketizer and not copy != depacketizer
    depacketizer.give_up_run()
    assert copy != depacketizer and not copy == depacketizer
    assert depacketizer.depacketize(fragments.end).data == b""
    assert copy.depacketize(fragments.end).data == behind_lengths([fragments.unit])
    # A copy keeps the settings.
    assert copy.avc and copy.codec is codec


def test_settings_of_a_copy() -> None:
    copy = Depacketizer(Codec.H266, donl=True).copy()
    assert copy.donl
    takes(copy, "00390002dd", "00000001 0039dd", True)


def test_what_is_equal() -> None:
    first, second = Depacketizer(Codec.H265), Depacketizer(Codec.H265, donl=True)
    assert first != second
    second.donl = False
    assert first == second
    second.avc = True
    assert first != second
    second.avc = False
    takes(second, "0201aa", "00000001 0201aa", False)
    assert first != second
    assert first != Depacketizer(Codec.H266) and first != 0 and first is not None
    with pytest.raises(TypeError):
        hash(first)


def test_what_is_closed_equals_itself_alone(codec: Codec) -> None:
    first, second = Depacketizer(codec), Depacketizer(codec)
    assert first == second
    second.close()
    assert first != second and second == second
    first.close()
    assert first != second


def test_refused_settings() -> None:
    with pytest.raises(NotOfThisCodec):
        Depacketizer(Codec.H264, donl=True)
    depacketizer = Depacketizer(Codec.H264)
    with pytest.raises(NotOfThisCodec):
        depacketizer.donl = True
    assert not depacketizer.donl
    with pytest.raises(UnknownCodec):
        Depacketizer(263)
