"""Receiving packets with their sequence numbers, of which some may be missing."""

from __future__ import annotations

import struct
from ctypes import byref, c_size_t, c_uint16, c_uint32, sizeof
from enum import IntEnum
from typing import Any, Iterable, List, NamedTuple, Optional, Tuple, Union

from ._library import Handle, ReceiveTold, library
from ._many import Laid, laid
from ._memory import Buffer, Room, as_bytes, number
from .codec import Codec, codec_of
from .depacketizer import BEFORE_UNIT, KEYFRAME, Taking
from .errors import Error, NoRoom, OutOfMemory, check, error_of


class Outcome(IntEnum):
    """What became of a packet (RFC 3550, 5.1). Sequence numbers go round at 65536."""

    #: Taken: it is the one that was expected, or the first of all. The distance is 0.
    IN_ORDER = 0
    #: Taken: packets before it are missing, as many as the distance, and the unit that was open is
    #: given up.
    GAP = 1
    #: Taken, with as many missing before it as the distance (0 too), and the unit that it left open is
    #: given up, since it held more than the limit.
    TOO_LONG = 2
    #: Not taken: it came late, or twice. The distance is how far it is behind the one expected; 1 is
    #: the number that was taken last.
    LATE = 3


class Received(NamedTuple):
    """What became of a packet, and what it completed."""

    outcome: Outcome
    #: How many packets are missing before it, or how far it is behind: see `Outcome`.
    distance: int
    #: The units, each behind 00 00 00 01, or behind its length in four bytes.
    data: bytes
    #: Whether a unit of a keyframe is among them; None where there is no unit. See
    #: `Depacketized.is_keyframe`.
    is_keyframe: Optional[bool]


_OUTCOME = list(Outcome)
# What is told of a packet, laid out as a C compiler does.
_BECAME = struct.Struct("@NNNIIHB0N")
assert _BECAME.size == sizeof(ReceiveTold)


class Receiver(Taking):
    """Writes the units of RTP payloads that come with their sequence numbers.

    It writes no unit of which a packet is missing, whatever a network loses, delays or brings twice, as
    long as gaps and delays are of fewer than 32768 packets. Packets must come in their order, since one
    behind a later one is late: where a network changes the order use an AccessUnitReceiver.

    One object may be used by several threads; one call at a time runs.

    >>> with Receiver(Codec.H264, run_limit=4_000_000) as receiver:
    ...     receiver.receive(65535, b"|\\x85\\x01").outcome
    ...     receiver.receive(1, b"|E\\x03")[:3]  # the fragment between them is lost
    ...     receiver.receive(2, b"a\\x09").data
    <Outcome.IN_ORDER: 0>
    (<Outcome.GAP: 1>, 1, b'')
    b'\\x00\\x00\\x00\\x01a\\t'
    """

    _CLONE = library.h26x_receiver_clone
    _FREE = library.h26x_receiver_free
    _SET_NUMBERS = library.h26x_receiver_set_numbers

    def __init__(
        self, codec: int, run_limit: int, *, donl: bool = False, avc: bool = False
    ) -> None:
        """A receiver that takes any sequence number as the first.

        `run_limit`: how many bytes of data, without the header, an open unit may hold from a packet to
        the next. Choose it above the units that are expected: one that doesn't fit is left out whole.
        `donl` and `avc` are those of a Depacketizer. Raises UnknownCodec, NotOfThisCodec or
        OutOfMemory.
        """
        known = codec_of(codec)
        limit = number("run_limit", run_limit)
        made = Handle()
        check(library.h26x_receiver_new(known, donl, avc, limit, byref(made)))
        self._begin(made, known, donl, avc, limit)

    def _begin(self, handle: Handle, codec: Codec, donl: bool, avc: bool, limit: int) -> None:
        self._run_limit = limit
        self._outcome, self._count, self._told = c_uint32(), c_uint16(), Room()
        self._set_up(handle, codec, donl, avc)

    @property
    def run_limit(self) -> int:
        """How many bytes of data an open unit may hold from a packet to the next."""
        return self._run_limit

    def _tell_avc(self, value: bool) -> None:
        check(self._with_handle(library.h26x_receiver_set_avc, value))

    @property
    def run_len(self) -> int:
        """How many bytes of data the open unit holds, up to the limit; 0 where none is open."""
        return int(self._with_handle(library.h26x_receiver_run_len))

    def receive(self, sequence: int, packet: Buffer) -> Received:
        """Takes a packet with its sequence number, from 0 to 65535, and answers what became of it and
        the units that it completes.

        Raises a PacketError or OutOfMemory, which is as if the packet had not come: pass it over, and
        go on with the next, which is behind a gap then. One refused for want of memory can be given
        again.

        A gap tells of packets that are missing, and nothing of what they held: ask the peer for a
        keyframe where decoding can't go on. A number 32768 or more ahead of the one expected is late,
        so where a peer's numbers jump all its packets are late, one after the other: call `restart`.
        """
        number("sequence", sequence, 65535)
        data = as_bytes(packet)
        with self._lock:
            units = self._take(library.h26x_receive, sequence, data)
            return Received(Outcome(self._outcome.value), self._count.value, *units)

    def receive_all(
        self, packets: Iterable[Tuple[int, Buffer]]
    ) -> List[Union[Received, Error]]:
        """Takes packets with their sequence numbers as `receive` does, in their order, by one call of the
        library. Answers what became of each, or the error that `receive` raises of one that is refused and passed over, up
        to the first for which memory lacks: give that and those behind it again.

        Raises OutOfMemory where memory lacks for the first, which changes nothing.
        """
        given = laid((sequence, 0, False, packet) for sequence, packet in packets)
        became: List[Union[Received, Error]] = []
        with self._lock:
            while len(became) < len(given.begins):
                code = self._receive_behind(given, became)
                if code == OutOfMemory.code and not became:
                    check(code)
                if code != NoRoom.code:
                    return became
        return became

    def _receive_behind(self, given: Laid, became: List[Union[Received, Error]]) -> int:
        """Has the library take those behind the first ones, and notes what became of them; its code."""
        count, taken, written = len(given.begins) - len(became), c_size_t(), c_size_t()
        self._room.grow(len(given.data) + count * BEFORE_UNIT)
        self._told.grow(count * _BECAME.size)
        code: int = library.h26x_receive_all(
            self._live(),
            given.data,
            len(given.data),
            given.behind(len(became)),
            count,
            self._room.address,
            self._room.size,
            self._told.address,
            count,
            byref(taken),
            byref(written),
        )
        begin = 0
        told = self._told.view[: taken.value * _BECAME.size]
        for size, first, second, refusal, outcome, distance, extra in _BECAME.iter_unpack(told):
            if refusal:
                became.append(error_of(refusal, first, second))
                continue
            end = begin + size
            if end > self._room.size:
                data = self._left(size)
            else:
                data, begin = self._room.copy(begin, end), end
            became.append(Received(_OUTCOME[outcome], distance, data, KEYFRAME[extra]))
        return code

    def _left(self, size: int) -> bytes:
        """What the last packet that was taken completed, and had no room for."""
        self._room.grow(size)
        library.h26x_written_copy(self._live(), self._room.address, self._room.size)
        return self._room.copy(0, size)

    def skip(self, sequence: int) -> Tuple[Outcome, int]:
        """Passes over a number that came and bears nothing of the stream, as that of padding alone, of
        forward error correction or of another payload type: so it isn't missing. Answers what became of
        it, and the distance: in order the open unit stays, behind a gap it is given up, and late
        changes nothing."""
        number("sequence", sequence, 65535)
        outcome, distance = c_uint32(), c_uint16()
        told = (byref(outcome), byref(distance))
        check(self._with_handle(library.h26x_receiver_skip, sequence, *told))
        return Outcome(outcome.value), distance.value

    def restart(self) -> None:
        """Gives up the open unit, frees its buffer, and takes any sequence number as the next."""
        check(self._with_handle(library.h26x_receiver_restart))

    def copy(self) -> Receiver:
        """The same receiver again, with its settings, its open unit and the number that it expects.
        Raises OutOfMemory."""
        made = type(self).__new__(type(self))
        made._begin(self._cloned(), self._codec, self._donl, self._avc, self._run_limit)
        return made

    __copy__ = copy

    def _more(self) -> Any:
        return byref(self._outcome), byref(self._count)
