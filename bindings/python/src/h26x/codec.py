"""The codecs."""

from __future__ import annotations

from enum import IntEnum

from .errors import UnknownCodec


class Codec(IntEnum):
    """A codec. The names are those of SDP (RFC 6184, 8.1; RFC 7798, 7.1; RFC 9328, 7.2)."""

    H264 = 264
    H265 = 265
    H266 = 266


def codec_of(number: int) -> Codec:
    """The codec of this number; UnknownCodec where there is none."""
    try:
        return Codec(number)
    except ValueError:
        raise UnknownCodec() from None
