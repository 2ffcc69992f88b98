"""The packets that a depacketizer or a receiver of H.265 shows, and PACI packets."""

from __future__ import annotations

from ctypes import byref, c_size_t, c_uint32
from enum import IntEnum
from typing import NamedTuple, Optional, Tuple

from . import _library
from ._library import Handle, library
from ._memory import Buffer, Room, as_bytes
from .errors import check

#: What the library says where a part has no number before it.
_NO_NUMBER = 65536


class Kind(IntEnum):
    """What a packet of H.265 is (RFC 7798, 4.4.1 to 4.4.4)."""

    SINGLE = 1
    FRAGMENT = 2
    AGGREGATE = 3
    PACI = 4


class Part(NamedTuple):
    """A part of a packet."""

    #: Its bytes.
    data: bytes
    #: The number that stands before it: DONL, or DOND of a unit behind the first. None without one.
    number: Optional[int]


class ShownPacket(NamedTuple):
    """A packet of H.265 (RFC 7798, 4.4)."""

    kind: Kind
    #: F, the type, the layer id and TID, from the highest bit down (1.1.4); 0 for an aggregate.
    header: int
    #: From the highest bit down: of a fragment S, E and the unit's type, in 8 bits (4.4.3); of a PACI
    #: packet A, cType, PHSsize, F0, F1, F2 and Y (4.4.4); else 0.
    word: int
    #: Of SINGLE and FRAGMENT what stands behind the headers and DONL; of AGGREGATE each unit; of PACI
    #: the extension of the header, in which TSCI is the first three bytes where F0 is set (4.5), and
    #: then the unit without its header.
    parts: Tuple[Part, ...]


def shown_of(handle: Handle) -> ShownPacket:
    """What the handle shows, for who has its lock."""
    shown = _library.ShownPacket()
    check(library.h26x_h265_shown(handle, byref(shown)))
    room = Room()
    parts = tuple(_part(handle, i, room) for i in range(shown.parts))
    return ShownPacket(Kind(shown.kind), shown.header, shown.word, parts)


def _part(handle: Handle, i: int, room: Room) -> Part:
    """Part i of what is shown."""
    before = c_uint32()
    size = library.h26x_h265_part_copy(handle, i, room.address, room.size, byref(before))
    if size > room.size:
        room.grow(size)
        library.h26x_h265_part_copy(handle, i, room.address, room.size, byref(before))
    return Part(room.copy(0, size), None if before.value == _NO_NUMBER else before.value)


def paci_packet(unit: Buffer, extension: Buffer = b"") -> bytes:
    """A PACI packet of a unit of H.265, its header first, with an extension of the header (RFC 7798,
    4.4.4). F0 is set where the extension has three bytes or more.

    Raises ShortPacket where the unit has under two bytes; else H265PaciPhesTooLong where the extension
    has over 31; else OutOfMemory.
    """
    one, more = as_bytes(unit), as_bytes(extension)
    room, size = Room(), c_size_t()
    # The word of the packet, of two bytes, is all that stands in it besides.
    room.grow(len(one) + len(more) + 2)
    to = (room.address, room.size, byref(size))
    check(library.h26x_h265_paci_packet(one, len(one), more, len(more), *to))
    return room.copy(0, size.value)
