"""Bytes as hexadecimal digits, and the fragments of a unit in these."""

from typing import List, NamedTuple

from h26x import Codec


def some(digits: str) -> bytes:
    """The bytes that digits name; spaces are for the reader."""
    return bytes.fromhex(digits)


def many(digits: str) -> List[bytes]:
    """Those between '|'; none where there are no digits."""
    return [some(one) for one in digits.split("|")] if digits else []


class Fragments(NamedTuple):
    """The first slice of a keyframe in three fragments of two bytes of data each."""

    start: bytes
    middle: bytes
    end: bytes
    unit: bytes


#: RFC 6184, 5.8; RFC 7798, 4.4.3; RFC 9328, 4.3.3: an IDR slice; a slice of IDR_W_RADL; the same.
FRAGMENTS = {
    Codec.H264: Fragments(*many("7c858802|7c050304|7c450506|65 880203040506")),
    Codec.H265: Fragments(*many("6201938802|6201130304|6201530506|2601 880203040506")),
    Codec.H266: Fragments(*many("00e9878802|00e9070304|00e9470506|0039 880203040506")),
}
