"""What streams and packets hold, read as the RFCs have it (RFC 6184, 5; RFC 7798, 4.4; RFC 9328, 4.3),
without the library. Packets bear no decoding order numbers here."""

import os
import re
import subprocess
from functools import lru_cache
from pathlib import Path
from typing import Dict, List, NamedTuple, Sequence, Tuple

import pytest
from h26x import Codec

STREAMS = Path(__file__).parents[2] / "streams"

#: The types of an aggregate, of a fragment and of an access unit delimiter.
TYPES = {Codec.H264: (24, 28, 9), Codec.H265: (48, 49, 35), Codec.H266: (28, 29, 20)}


class Placed(NamedTuple):
    """A unit, and the packets that hold it: its fragments, or one."""

    first: int
    last: int
    unit: bytes


@lru_cache(maxsize=None)
def stream(codec: Codec) -> bytes:
    """A small stream of the codec. That of H.266 takes seconds to make: H26X_UNITS_H266 may name a file
    that make_h266 wrote."""
    if not STREAMS.is_dir():
        pytest.skip("the streams lie beside the package in its repository")
    if codec is Codec.H266:
        made = os.environ.get("H26X_UNITS_H266")
        if made:
            return Path(made).read_bytes()
        return subprocess.run([STREAMS / "make_h266"], check=True, stdout=subprocess.PIPE).stdout
    return (STREAMS / f"test_pictures.h{int(codec)}").read_bytes()


def split(codec: Codec, data: bytes) -> List[bytes]:
    """The units behind start codes. No unit of the streams here ends with a byte that is 0."""
    return [unit for unit in re.split(rb"\0{2,}\x01", data) if unit]


def type_of(codec: Codec, unit: bytes) -> int:
    """The type of a unit or a packet."""
    if codec is Codec.H264:
        return unit[0] & 31
    return unit[0] >> 1 & 63 if codec is Codec.H265 else unit[1] >> 3


def aggregated(codec: Codec, packet: bytes) -> List[bytes]:
    """The units of an aggregate: each behind its length in two bytes."""
    at, units = 1 if codec is Codec.H264 else 2, []
    while at < len(packet):
        size = int.from_bytes(packet[at : at + 2], "big")
        units.append(packet[at + 2 : at + 2 + size])
        assert len(units[-1]) == size
        at += 2 + size
    return units


def fragment(codec: Codec, packet: bytes) -> Tuple[bool, bool, bytes, bytes]:
    """S, E, the header of the unit, and the data of a fragment."""
    if codec is Codec.H264:
        word, header = packet[1], bytes([packet[0] & 0xE0 | packet[1] & 31])
        return word & 128 > 0, word & 64 > 0, header, packet[2:]
    word = packet[2]
    if codec is Codec.H265:
        header = bytes([packet[0] & 0x81 | (word & 63) << 1, packet[1]])
    else:
        header = bytes([packet[0], (word & 31) << 3 | packet[1] & 7])
    return word & 128 > 0, word & 64 > 0, header, packet[3:]


def placed(codec: Codec, packets: Sequence[bytes]) -> List[Placed]:
    """The units of all packets, in order; none of the packets is missing."""
    aggregate, fragments, _ = TYPES[codec]
    units: List[Placed] = []
    first, run = -1, b""
    for n, packet in enumerate(packets):
        kind = type_of(codec, packet)
        if kind == aggregate:
            units += [Placed(n, n, unit) for unit in aggregated(codec, packet)]
        elif kind != fragments:
            units.append(Placed(n, n, packet))
        else:
            starts, ends, header, data = fragment(codec, packet)
            assert starts == (first < 0) and not (starts and ends)
            first, run = (n, data) if starts else (first, run + data)
            if ends:
                units.append(Placed(first, n, header + run))
                first = -1
    assert first < 0
    return units


def annex_b(units: Sequence[bytes]) -> bytes:
    """Units behind start codes."""
    return b"".join(b"\0\0\0\1" + unit for unit in units)


def behind_lengths(units: Sequence[bytes]) -> bytes:
    """Units behind their lengths in four bytes, as MP4 files have them."""
    return b"".join(len(unit).to_bytes(4, "big") + unit for unit in units)


#: Which types are of a keyframe: IDR (H.264), IRAP (H.265), IDR and CRA (H.266).
KEYFRAMES: Dict[Codec, range] = {
    Codec.H264: range(5, 6),
    Codec.H265: range(16, 24),
    Codec.H266: range(7, 10),
}


#: What the types of parameter sets, picture headers and delimiters are called here.
ROLES: Dict[Codec, Dict[int, str]] = {
    Codec.H264: {7: "sps", 8: "pps", 9: "delimiter"},
    Codec.H265: {32: "vps", 33: "sps", 34: "pps", 35: "delimiter"},
    Codec.H266: {14: "vps", 15: "sps", 16: "pps", 19: "header", 20: "delimiter"},
}

#: The types of slices.
SLICES = {Codec.H264: range(1, 6), Codec.H265: range(0, 32), Codec.H266: range(0, 12)}


def role_of(codec: Codec, unit: bytes) -> str:
    """What a unit is to a decoder."""
    kind = type_of(codec, unit)
    return "slice" if kind in SLICES[codec] else ROLES[codec].get(kind, "other")


def is_key(codec: Codec, unit: bytes) -> bool:
    """Whether a unit is of a keyframe."""
    return type_of(codec, unit) in KEYFRAMES[codec]
