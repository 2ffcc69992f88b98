"""Calls on packets and payloads that need no object."""

from __future__ import annotations

from ctypes import POINTER, byref, c_size_t, c_uint8, cast
from typing import Iterator, Tuple, Union

from ._library import library
from ._memory import Buffer, Target, as_bytes, number
from .codec import Codec, codec_of


def is_partition_head(codec: int, packet: Buffer) -> bool:
    """Whether a packet may be the first of an access unit: one of two bytes or more that is no
    fragment, or the first of its unit. Raises UnknownCodec."""
    data = as_bytes(packet)
    return bool(library.h26x_is_partition_head(codec_of(codec), data, len(data)))


def is_partition_tail(codec: int, marker: bool, packet: Buffer) -> bool:
    """Whether a packet is told to be the last of an access unit; `marker` is its marker bit.

    Of H.264 it is the marker. Of a fragment of H.265 or H.266 it is the E bit, whatever the marker, and
    the marker of every other packet. E is set where a unit ends, so **an access unit may have more than
    one such packet**: its end is told by the marker alone. Raises UnknownCodec.
    """
    data = as_bytes(packet)
    return bool(library.h26x_is_partition_tail(codec_of(codec), marker, data, len(data)))


def detect_keyframe(codec: int, packet: Buffer) -> bool:
    """Whether a packet without decoding order numbers is known to hold a unit of a keyframe, or to be
    the first fragment of one. Raises UnknownCodec."""
    data = as_bytes(packet)
    return bool(library.h26x_detect_keyframe(codec_of(codec), data, len(data)))


def begins_keyframe(codec: int, packet: Buffer, *, donl: bool = False) -> bool:
    """Whether a packet begins a unit of a keyframe: it holds one, alone or in an aggregate, or is its first
    fragment. `donl`: whether packets bear decoding order numbers; those of H.264 don't. So a forwarder finds where a keyframe
    begins, whichever units share packets.

    Key units are slices of IDR pictures of H.264, of IRAP pictures of H.265, of IDR and CRA pictures of
    H.266. A packet that a Depacketizer refuses begins none. Raises UnknownCodec.
    """
    data = as_bytes(packet)
    return bool(library.h26x_begins_keyframe(codec_of(codec), donl, data, len(data)))


def detect_h264_nalu(packet: Buffer, nalu_type: int) -> bool:
    """Whether an H.264 packet is known to hold a unit of this type, or to be the first fragment of
    one."""
    data = as_bytes(packet)
    wanted = number("nalu_type", nalu_type, 255)
    return bool(library.h26x_detect_h264_nalu(data, len(data), wanted))


def set_lowest_header(
    codec: int, packet: Union[bytearray, memoryview], *, donl: bool = False
) -> None:
    """Gives an aggregation packet of H.265 the header that RFC 7798, 4.4.2 asks for, where it stands: the
    lowest layer and the lowest temporal id of the units in it, and F where one has it. `donl`: whether
    packets bear decoding order numbers. Every other packet stays, and those of H.264 and H.266. Raises
    UnknownCodec.

    >>> packet = bytearray.fromhex("600b 0002 4001 0002 4201 0002 4401")  # sets of TID 1, before a slice of 3
    >>> set_lowest_header(Codec.H265, packet)
    >>> packet[:2].hex()
    '6001'
    """
    known, target = codec_of(codec), Target(packet)
    try:
        address = cast(target.address, POINTER(c_uint8))
        library.h26x_set_lowest_header(known, donl, address, target.size)
    finally:
        target.release()


def units(codec: int, payload: Buffer) -> Iterator[bytes]:
    """The units of a payload, in order, without their start codes. A payload without a start code is
    one unit, and an empty unit is left out. Raises UnknownCodec.

    >>> [unit.hex() for unit in units(Codec.H264, bytes.fromhex("000001 6742 000001 65"))]
    ['6742', '65']
    """
    return _units(codec_of(codec), as_bytes(payload))


def _units(codec: Codec, data: bytes) -> Iterator[bytes]:
    for begin, end in _places(codec, data):
        yield data[begin:end]


def avc_units(text: Buffer) -> Iterator[bytes]:
    """The units of a text whose units stand behind their lengths of four bytes (`avc`), in order,
    without empty ones. It ends where fewer bytes are left than a length tells.

    >>> [unit.hex() for unit in avc_units(bytes.fromhex("00000002 6742 00000001 65"))]
    ['6742', '65']
    """
    return _avc_units(as_bytes(text))


def _avc_units(data: bytes) -> Iterator[bytes]:
    for begin, end in _avc_places(data):
        yield data[begin:end]


def unit_places(codec: int, text: Buffer, avc: bool = False) -> Iterator[Tuple[int, int]]:
    """Where each unit of a text begins and where it ends: of those that `units` gives, or with `avc` of
    those that `avc_units` does. So nothing is copied. Raises UnknownCodec.

    >>> list(unit_places(Codec.H264, bytes.fromhex("000001 6742 000001 65")))
    [(3, 5), (8, 9)]
    """
    known, data = codec_of(codec), as_bytes(text)
    return _avc_places(data) if avc else _places(known, data)


def _places(codec: Codec, data: bytes) -> Iterator[Tuple[int, int]]:
    begin, end = c_size_t(), c_size_t()
    while library.h26x_next_unit(codec, data, len(data), end, byref(begin), byref(end)):
        yield begin.value, end.value


def _avc_places(data: bytes) -> Iterator[Tuple[int, int]]:
    begin, end = c_size_t(), c_size_t()
    while library.h26x_next_avc_unit(data, len(data), end, byref(begin), byref(end)):
        yield begin.value, end.value


def is_plain_unit(codec: int, unit: Buffer) -> bool:
    """Whether a unit, its header first, is plain: one of the video itself, in whose Annex B text no
    reader finds another. Raises UnknownCodec.

    Its header is whole, with F 0 (of H.266 Z too) and a type that no packets use: H.264 1 to 23,
    H.265 0 to 47, H.266 0 to 27. It holds neither 00 00 00 nor 00 00 01, and doesn't end in a zero.
    **A stranger's units may be others**, and are written as they come: where that matters, have units
    written behind lengths (`avc`) and ask this of each. What `units` cuts out of Annex B text has lost
    the codes.

    >>> [is_plain_unit(Codec.H264, bytes.fromhex(unit)) for unit in ("6588", "41aa 000001 6588")]
    [True, False]
    """
    data = as_bytes(unit)
    return bool(library.h26x_unit_is_plain(codec_of(codec), data, len(data)))


def out_size_hint(packets_size: int) -> int:
    """About how many bytes the units of packets of this many bytes take when they are written.

    **It is no bound**, since each unit of a short packet has four bytes before it: 50 units of 100
    bytes take 5200, and the hint is 5020.
    """
    return int(library.h26x_out_size_hint(number("packets_size", packets_size)))
