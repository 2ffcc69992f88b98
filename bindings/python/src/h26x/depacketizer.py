"""Receiving packets of which none before is missing."""

from __future__ import annotations

from ctypes import byref, c_size_t, c_uint8
from typing import Any, Callable, NamedTuple, Optional

from ._handle import Owner
from ._library import Handle, Refusal, library
from ._memory import Buffer, Room, as_bytes
from .codec import Codec, codec_of
from .errors import check, error_of
from .shown import ShownPacket, shown_of

#: The bytes before a unit: a start code, or its length.
BEFORE_UNIT = 4

#: What the library tells of units.
KEYFRAME = {0: None, 1: False, 2: True}


class Depacketized(NamedTuple):
    """What a packet completed."""

    #: The units, each behind 00 00 00 01, or behind its length in four bytes.
    data: bytes
    #: Whether a unit of a keyframe is among them; None where the packet completed no unit. It tells of
    #: IDR pictures (H.264), IRAP pictures (H.265), IDR and CRA pictures (H.266), and not of a recovery
    #: point without one (intra refresh, gradual decoding refresh).
    is_keyframe: Optional[bool]


class Taking(Owner):
    """What takes packets, and writes what they complete."""

    #: The call that turns decoding order numbers on or off.
    _SET_NUMBERS: Callable[..., int]

    def _set_up(self, handle: Handle, codec: Codec, donl: bool, avc: bool) -> None:
        self._codec, self._donl, self._avc = codec, donl, avc
        self._room = Room()
        self._written, self._extra, self._why = c_size_t(), c_uint8(), Refusal()
        self._own(handle)

    @property
    def codec(self) -> Codec:
        """Its codec."""
        return self._codec

    @property
    def donl(self) -> bool:
        """Whether packets bear decoding order numbers. An open unit stays open. Of H.264 setting it
        raises NotOfThisCodec."""
        return self._donl

    @donl.setter
    def donl(self, value: bool) -> None:
        check(self._with_handle(type(self)._SET_NUMBERS, value))
        self._donl = value

    @property
    def avc(self) -> bool:
        """Whether units are written behind lengths. A unit has the form that is set when the packet
        comes that completes it."""
        return self._avc

    @avc.setter
    def avc(self, value: bool) -> None:
        self._tell_avc(value)
        self._avc = value

    def _tell_avc(self, value: bool) -> None:
        """Has the library know it, where it isn't told with each packet."""

    def shown(self) -> ShownPacket:
        """Of H.265 the packet that was taken last, by its parts (RFC 7798, 4.4); before any, a single
        NAL unit packet with a header of 0 and no bytes. Raises NotOfThisCodec of the others."""
        with self._lock:
            return shown_of(self._live())

    def _take(self, call: Any, *arguments: Any) -> Depacketized:
        """Has a call take a packet, for who has the lock. `arguments` end with the packet."""
        *before, packet = arguments
        self._room.grow(len(packet) + BEFORE_UNIT)
        self._extra.value = 0
        code = call(
            self._live(),
            *before,
            packet,
            len(packet),
            self._room.address,
            self._room.size,
            byref(self._written),
            byref(self._extra),
            *self._more(),
            byref(self._why),
        )
        if code != 0:
            raise error_of(code, self._why.first, self._why.second)
        return Depacketized(self._data(), KEYFRAME[self._extra.value])

    def _more(self) -> Any:
        """What more a call tells."""
        return ()

    def _data(self) -> bytes:
        """What the packet completed."""
        written = self._written.value
        if written > self._room.size:
            self._room.grow(written)
            library.h26x_written_copy(self._live(), self._room.address, self._room.size)
        return self._room.copy(0, written)


class Depacketizer(Taking):
    """Writes the units of RTP payloads (RFC 6184, 5; RFC 7798, 4.4; RFC 9328, 4.3).

    **It has no sequence numbers, so it doesn't notice a lost packet**: where a fragment is missing, the
    unit is written without that one's data. Over a network use a Receiver; or call `give_up_run`
    wherever a number is missing.

    One object may be used by several threads; one call at a time runs.

    >>> with Depacketizer(Codec.H264) as depacketizer:
    ...     for packet in b"|\\x85\\x01\\x02\\x03", b"|E\\x04\\x05\\x06":
    ...         depacketizer.depacketize(packet)
    Depacketized(data=b'', is_keyframe=None)
    Depacketized(data=b'\\x00\\x00\\x00\\x01e\\x01\\x02\\x03\\x04\\x05\\x06', is_keyframe=True)
    """

    _CLONE = library.h26x_depacketizer_clone
    _FREE = library.h26x_depacketizer_free
    _SET_NUMBERS = library.h26x_depacketizer_set_numbers

    def __init__(self, codec: int, *, donl: bool = False, avc: bool = False) -> None:
        """A depacketizer with no unit open.

        `donl`: whether packets bear decoding order numbers (H.265 and H.266). Nothing in a packet tells
        it: set otherwise than the sender's, numbers are read as bytes of units, or bytes as numbers.
        `avc`: whether units are written behind lengths, as MP4 files have them (avc1, hvc1, vvc1), and
        not behind start codes. Raises UnknownCodec, NotOfThisCodec or OutOfMemory.
        """
        known = codec_of(codec)
        made = Handle()
        check(library.h26x_depacketizer_new(known, donl, byref(made)))
        self._set_up(made, known, donl, avc)

    def depacketize(self, packet: Buffer) -> Depacketized:
        """Takes a packet, and answers the units that it completes.

        Raises a PacketError or OutOfMemory, which changes nothing: pass the packet over, and go on with
        the next. After OutOfMemory the same one can be given again.

        A peer that never ends a unit makes the open unit as long as all that it sends: a Receiver has a
        limit; else add up the lengths of the fragments since one had its S bit, and call
        `give_up_run`.
        """
        data = as_bytes(packet)
        with self._lock:
            return self._take(library.h26x_depacketize, self._avc, data)

    def give_up_run(self) -> None:
        """Gives up the open unit and frees its buffer: for where a packet is missing, or where the unit
        has grown too long. What follows of that unit is accepted and completes nothing."""
        check(self._with_handle(library.h26x_give_up_run))

    def __eq__(self, other: object) -> bool:
        """Whether both are of one codec and have the same settings and the same open unit; of H.265 they
        must have accepted the same packet last as well. What is closed equals itself alone. There is no
        hash, since it changes."""
        if not isinstance(other, Depacketizer):
            return NotImplemented
        if other is self:
            return True
        # In one order, so that two threads that compare the same two don't wait for each other.
        first, second = sorted((self, other), key=id)
        with first._lock, second._lock:
            if first.closed or second.closed or first._avc != second._avc:
                return False
            return bool(library.h26x_depacketizer_same(first._live(), second._live()))

    def copy(self) -> Depacketizer:
        """The same depacketizer again, with its settings and its open unit. Raises OutOfMemory."""
        made = type(self).__new__(type(self))
        made._set_up(self._cloned(), self._codec, self._donl, self._avc)
        return made

    __copy__ = copy
