"""Access units over a network: packets as they come, in any order, some lost and some twice."""

from __future__ import annotations

import struct
from ctypes import byref, c_size_t, c_uint16, c_uint32, sizeof
from dataclasses import dataclass
from enum import IntEnum
from typing import Any, Callable, Iterable, Iterator, List, NamedTuple, NoReturn, Optional, Tuple

from ._handle import Owner
from ._library import (
    Handle,
    NackTimesGiven,
    PushTold,
    SoFarTold,
    UnitsConfig,
    UnitsCounts,
    UnitTold,
    library,
)
from ._many import laid
from ._memory import Buffer, Room, as_bytes, number
from .codec import Codec, codec_of
from .depacketizer import KEYFRAME
from .errors import NoRoom, NothingYet, check

_TICKS = 2**32 - 1
_EACH_NUMBER = 2


class RtpPacket(NamedTuple):
    """What a packet's header says of it, and its payload (RFC 3550, 5.1)."""

    sequence: int
    timestamp: int
    marker: bool
    payload: Buffer


class Pushed(IntEnum):
    """What became of a packet that was given to an AccessUnitReceiver."""

    #: It waits for those before it, or to be taken, or was taken.
    HELD = 0
    #: Dropped: it came after its place was passed.
    LATE = 1
    #: Dropped: a packet with its number waits, or was taken and is among the last 1024.
    TWICE = 2
    #: Dropped: more bytes wait than the limit. Take access units, and give it again.
    FULL = 3
    #: Its number is too far from the one that is due, or more than a window, and than 100, ahead of
    #: those that wait: it waits alone, in the place of another such packet.
    STRAY = 4
    #: It follows the one that waited alone: the stream begins anew, and what waited of the old numbers
    #: is dropped.
    ANEW = 5
    #: It is so far ahead, and no more than a window, or 100, from the one that waited alone: both wait.
    JUMPED = 6


_PUSHED = list(Pushed)
# What is told of a packet, laid out as a C compiler does.
_BECAME = struct.Struct("@IH0I")
assert _BECAME.size == sizeof(PushTold)


class NackTimes(NamedTuple):
    """When `nacks` asks for a number that is missing, in the caller's ticks."""

    #: How long it may come by itself, since the call that found it missing. 0: it is asked for there.
    first: int
    #: How long after it was asked for it is asked for again: a round trip, and some more.
    again: int
    #: How often it is asked for at most. 0: never.
    most: int


@dataclass(frozen=True)
class AccessUnitConfig:
    """A caller's settings of an AccessUnitReceiver."""

    #: A missing packet is waited for until one came so many places, less one, ahead of it: 1 to 16384.
    window: int = 512
    #: A number so far or farther ahead of the newest that waits (where none waits, of the one that is
    #: due), and `far_behind` behind the one that is due, waits alone until the next such number follows
    #: it, and then the stream begins anew with both, whatever `held_limit` is (RFC 3550, A.1). 0: none is
    #: too far, and one behind is late.
    far: int = 3000
    #: A missing packet is waited for so many ticks at most after one behind it came. None: by the
    #: window alone.
    max_wait: Optional[int] = None
    #: A packet that begins the stream, the first of all and that behind `finish`, `restart` or Pushed.ANEW,
    #: waits for those before it for so many ticks at most, and no longer than `max_wait` and `window` have
    #: it. 0: it doesn't wait, and those before it are late once `next` was called. None: as long as these
    #: have it.
    begin_wait: Optional[int] = 0
    #: How many bytes of payloads may wait; past that none is waited for.
    held_limit: int = 8_000_000
    #: How many bytes of data an open unit may hold from a packet to the next.
    run_limit: int = 4_000_000
    #: How many bytes an open access unit may hold from a packet to the next.
    unit_limit: int = 8_000_000
    #: The decoder has the parameter sets, as from the `sprop-*` of a session description, so that it can
    #: begin with a keyframe that bears none.
    has_sets: bool = False
    #: How far behind the one that is due a number is at least that is too far, but for the last 1024 that
    #: the stream passed, which are late or twice. 0: as `far`.
    far_behind: int = 100


@dataclass(frozen=True)
class AccessUnit:
    """An access unit, and what is told of it."""

    #: That of its packets.
    timestamp: int
    #: Its units, each behind 00 00 00 01 or behind its length: none of which a packet is missing.
    data: bytes
    #: Whether a unit of a keyframe is among them; None where there is no unit. See
    #: `Depacketized.is_keyframe`.
    is_keyframe: Optional[bool]
    #: It is known that nothing of it is missing: its first packet follows the one before, or it begins
    #: with a delimiter, or is the first one and begins with its parameter sets.
    is_whole: bool
    #: A decoder can show it. Nothing of it is missing, nor was since a keyframe that came from its first
    #: slice on with its parameter sets, in it or before it in order, or it is one. Disposable pictures may
    #: be missing in part, and packets that by frame numbers of H.264 bore no reference picture. Where it
    #: is False ask the sender for a keyframe.
    is_clean: bool
    #: No other picture refers to its own: those after it can be clean where it is damaged.
    is_disposable: bool
    #: A marker ended one of its timestamp right before it, as where a peer sets the marker on each slice.
    continues: bool
    #: The number of the first packet that came of it.
    first: int
    #: The number of the last.
    last: int
    #: How many numbers are missing between the access unit before and its end.
    missing: int


@dataclass(frozen=True)
class Counts:
    """What an AccessUnitReceiver has counted since it was made. Each stays at 2^64 - 1."""

    #: Packets that were taken, and not refused.
    taken: int = 0
    #: Numbers that are missing before packets taken, or numbers skipped or refused, and these.
    lost: int = 0
    #: Packets that came after their place was passed.
    late: int = 0
    #: Packets that came while one with their number waited, or after it was taken.
    twice: int = 0
    #: Packets whose number was too far from the one that was due.
    stray: int = 0
    #: Packets that were refused for what they are, but for those of no_unit.
    refused: int = 0
    #: Numbers that came and bear nothing.
    skipped: int = 0
    #: How often the stream began anew.
    anew: int = 0
    #: Access units that were given out.
    units: int = 0
    #: Those of them that are known to be whole.
    whole: int = 0
    #: NAL units that were longer than the run's limit.
    units_given_up: int = 0
    #: Texts of open access units that were longer than their limit.
    texts_given_up: int = 0
    #: Packets refused that bear nothing to be written, so that nothing is lost by them: a STAP-B, MTAP,
    #: FU-B or PACSI, and an end of sequence or bitstream of two bytes.
    no_unit: int = 0
    #: Access units that began, by their units, at the timestamp of the one before.
    still: int = 0
    #: Markers that weren't believed: no slice of their access unit had come, or the sender marks each slice.
    unbelieved: int = 0


def settings(codec: Codec, config: AccessUnitConfig, donl: bool, avc: bool) -> UnitsConfig:
    """The settings as C takes them."""
    return UnitsConfig(
        codec=codec,
        max_wait=_wait("max_wait", config.max_wait),
        begin_wait=_wait("begin_wait", config.begin_wait),
        window=number("window", config.window, 65535),
        far_away=number("far", config.far, 65535),
        far_behind=number("far_behind", config.far_behind, 65535),
        numbers=donl,
        avc=avc,
        has_sets=config.has_sets,
        held_limit=number("held_limit", config.held_limit),
        run_limit=number("run_limit", config.run_limit),
        unit_limit=number("unit_limit", config.unit_limit),
    )


class UnitsSoFar(NamedTuple):
    """What came of an access unit that is open."""

    #: The timestamp of its packets.
    timestamp: int
    #: Its NAL units that came whole, from the byte on that was asked for, in order.
    data: bytes
    #: What is told of the units: `Depacketized.is_keyframe`.
    is_keyframe: Optional[bool]


class GivesUnits(Owner):
    """What gives out access units that have ended."""

    #: The calls on such a handle.
    _SET_CONFIG: Callable[..., int]
    _NEXT: Callable[..., int]
    _SO_FAR: Callable[..., bool]
    _DEADLINE: Callable[..., bool]
    _FINISH: Callable[..., int]
    _COUNT: Callable[..., int]

    def _begin(self, codec: Codec, made: Handle) -> None:
        self._codec, self._room, self._unit = codec, Room(), UnitTold()
        self._own(made)

    @property
    def codec(self) -> Codec:
        """Its codec."""
        return self._codec

    def set_config(self, config: AccessUnitConfig) -> None:
        """Has other settings from now on, for what waits and is open too. Raises OutOfRange, which changes
        nothing."""
        wanted = settings(self._codec, config, False, False)
        check(self._with_handle(type(self)._SET_CONFIG, byref(wanted)))

    def next(self, now: int) -> Optional[AccessUnit]:
        """The next access unit, if one has ended at this tick; else None. Call it until there is none.
        Packets that are refused are passed over, and counted. One without bytes isn't given out: what is
        missing of it is told with the next one.

        Raises OutOfMemory, of which nothing is lost: the call can be made again.
        """
        at = tick("now", now)
        with self._lock:
            code = self._next(at)
            if code == NoRoom.code:
                self._room.grow(self._unit.len)
                code = self._next(at)
            if code == NothingYet.code:
                return None
            check(code)
            return self._given()

    def _next(self, now: int) -> int:
        """Has the next access unit written, for who has the lock."""
        room, unit = self._room, byref(self._unit)
        return type(self)._NEXT(self._live(), now, room.address, room.size, unit)

    def _given(self) -> AccessUnit:
        """What was written."""
        unit = self._unit
        return AccessUnit(
            timestamp=unit.timestamp,
            data=self._room.copy(0, unit.len),
            is_keyframe=KEYFRAME[unit.extra],
            is_whole=unit.is_whole,
            is_clean=unit.is_clean,
            is_disposable=unit.is_disposable,
            continues=unit.continues,
            first=unit.first,
            last=unit.last,
            missing=unit.missing,
        )

    def units(self, now: int) -> Iterator[AccessUnit]:
        """All access units that have ended at this tick: `next` until there is none."""
        while (unit := self.next(now)) is not None:
            yield unit

    def units_so_far(self, begin: int = 0) -> Optional[UnitsSoFar]:
        """The NAL units that came whole so far of the access unit that is open, from byte `begin` on: for who
        decodes each as soon as it is complete. Later packets put units behind these, until `next` gives all of it,
        with what is told of the whole. None where nothing is open, or `next` hasn't given out what ended before. A
        text of more than `unit_limit` bytes is given up.
        """
        first = number("begin", begin)
        with self._lock:
            told = SoFarTold()
            if not self._show(first, told):
                return None
            self._room.grow(told.len)
            self._show(first, told)
            data = self._room.copy(0, told.len)
        return UnitsSoFar(told.timestamp, data, KEYFRAME[told.extra])

    def _show(self, begin: int, told: SoFarTold) -> bool:
        """Has what came so far written, for who has the lock."""
        room = self._room
        return type(self)._SO_FAR(self._live(), begin, room.address, room.size, byref(told))

    def deadline(self) -> Optional[int]:
        """The tick at which to take access units at the latest, if packets wait and there is a
        `max_wait`, or for the packet that begins the stream a `begin_wait`; else None."""
        at = c_uint32()
        return at.value if self._with_handle(type(self)._DEADLINE, byref(at)) else None

    def finish(self) -> None:
        """At the end of a stream: all that waits is due, and once it was taken the open access unit
        ends, not known to be whole. `units` gives all of it, and then any number is the next."""
        check(self._with_handle(type(self)._FINISH))

    def counts(self) -> Counts:
        """What was counted."""
        told = UnitsCounts()
        check(self._with_handle(type(self)._COUNT, byref(told)))
        return Counts(**{name: getattr(told, name) for name, _ in UnitsCounts._fields_})

    def __copy__(self) -> NoReturn:
        """The library has no copy of it."""
        raise TypeError(f"a {type(self).__name__} has no copy")


class AccessUnitReceiver(GivesUnits):
    """Takes packets as a network brings them, some lost, some twice and in any order, and gives out
    access units.

    `now` is the caller's clock, in ticks of his own, which goes round at 2^32 and never goes back. Push
    what comes; take access units until there is none; and do so again at the `deadline`.

    One object may be used by several threads; one call at a time runs.

    >>> receiver = AccessUnitReceiver(Codec.H264, AccessUnitConfig(max_wait=100, begin_wait=20))
    >>> for packet in (  # two fragments of a unit, in the other order, and a unit of the next picture
    ...     RtpPacket(8, 3000, True, b"|E\\x02"),
    ...     RtpPacket(7, 3000, False, b"|\\x85\\x01"),
    ...     RtpPacket(9, 6000, True, b"a\\x09"),
    ... ):
    ...     outcome, _ = receiver.push(0, packet)
    >>> receiver.next(0)  # packets before the first may still come
    >>> receiver.deadline()
    20
    >>> [(unit.timestamp, unit.data.hex(), unit.is_whole) for unit in receiver.units(20)]
    [(3000, '00000001650102', False), (6000, '000000016109', True)]
    """

    _FREE = library.h26x_access_units_free
    _SET_CONFIG = library.h26x_access_units_set_config
    _NEXT = library.h26x_access_units_next
    _SO_FAR = library.h26x_access_units_so_far
    _DEADLINE = library.h26x_access_units_deadline
    _FINISH = library.h26x_access_units_finish
    _COUNT = library.h26x_access_units_count

    def __init__(
        self,
        codec: int,
        config: AccessUnitConfig = AccessUnitConfig(),
        *,
        donl: bool = False,
        avc: bool = False,
    ) -> None:
        """A receiver that takes any sequence number as the first. `donl` and `avc` are those of a
        Depacketizer. Raises UnknownCodec, NotOfThisCodec, OutOfRange or OutOfMemory."""
        made, wanted = Handle(), settings(codec_of(codec), config, donl, avc)
        check(library.h26x_access_units_new(byref(wanted), byref(made)))
        self._begin(codec_of(codec), made)
        self._told = Room()

    def push(self, now: int, packet: RtpPacket) -> Tuple[Pushed, int]:
        """Takes a packet that came at this tick, and copies it where it waits. Answers what became of
        it, and where it is late how far it is behind the one that is due; else 0. One without a payload
        came and bears nothing, as `skip` has it. Then take access units until there is none.

        Raises OutOfMemory, which changes nothing: the packet can be given again.
        """
        payload = as_bytes(packet.payload)
        return self._push(
            library.h26x_access_units_push,
            tick("now", now),
            number("sequence", packet.sequence, 65535),
            tick("timestamp", packet.timestamp),
            packet.marker,
            payload,
            len(payload),
        )

    def push_all(self, now: int, packets: Iterable[RtpPacket]) -> List[Tuple[Pushed, int]]:
        """Takes packets that came at this tick as `push` does, in their order, by one call of the library.
        Answers what became of each, up to the first that is FULL or for which memory lacks: take access
        units, and give that and those behind it again.

        Raises OutOfMemory where memory lacks for the first, which changes nothing.
        """
        given = laid(packets)
        at, count, taken = tick("now", now), len(given.begins), c_size_t()
        with self._lock:
            self._told.grow(count * _BECAME.size)
            code = library.h26x_access_units_push_all(
                self._live(),
                at,
                given.data,
                len(given.data),
                given.places,
                count,
                self._told.address,
                count,
                byref(taken),
            )
            told = min(taken.value + 1, count) if code == 0 else taken.value
            if not told:
                check(code)
            became = _BECAME.iter_unpack(self._told.view[: told * _BECAME.size])
            return [(_PUSHED[pushed], behind) for pushed, behind in became]

    def skip(self, now: int, sequence: int) -> Tuple[Pushed, int]:
        """Passes over a number that came and bears nothing of the stream, as that of padding alone, of
        forward error correction or of another payload type: so it isn't missing. What it answers is that
        of `push`."""
        given = (tick("now", now), number("sequence", sequence, 65535))
        return self._push(library.h26x_access_units_skip, *given)

    def _push(self, call: Any, *arguments: Any) -> Tuple[Pushed, int]:
        pushed, behind = c_uint32(), c_uint16()
        check(self._with_handle(call, *arguments, byref(pushed), byref(behind)))
        return Pushed(pushed.value), behind.value

    def missing(self) -> List[int]:
        """The numbers that are missing before packets that wait, in order: those to ask the sender for
        again (NACK; RFC 4585, 6.2.1). Of a stream that begins none is missing before the first packet
        that waits. Raises OutOfMemory."""
        count, call = c_size_t(), library.h26x_access_units_missing
        with self._lock:
            check(call(self._live(), None, 0, byref(count)))
            if count.value == 0:
                return []
            room = Room()
            room.grow(count.value * _EACH_NUMBER)
            check(call(self._live(), room.address, count.value, byref(count)))
        return room.view[: count.value * _EACH_NUMBER].cast("H").tolist()

    def nacks(self, now: int, times: NackTimes, room: int = 512) -> List[int]:
        """The numbers of `missing` that are to be asked for at this tick, in order, up to `room` of them: each is
        asked for as `times` says, and counts as asked for. Others are due at the next call. A number counts as
        missing since the first of the calls in a row that found it so: call it as often as `first` and `again`
        ask for. Raises OutOfMemory: nothing counts as asked for then."""
        count, to, call = c_size_t(), Room(), library.h26x_access_units_nacks
        at, wide = tick("now", now), number("room", room, 65536)
        wanted = times_given(times)
        with self._lock:
            check(library.h26x_access_units_missing(self._live(), None, 0, byref(count)))
            wide = min(wide, count.value)
            to.grow(max(wide, 1) * _EACH_NUMBER)
            check(call(self._live(), at, byref(wanted), to.address, wide, byref(count)))
        return to.view[: count.value * _EACH_NUMBER].cast("H").tolist()

    def begin_at(self, sequence: int) -> bool:
        """Says the number of the first packet of the stream, as a peer tells it (RTP-Info of RTSP, RFC 2326,
        12.33): packets from it on are waited for, those before it are late, and the first access unit is
        known to be whole where all of it came. Answers whether it is said in time: once a packet came, or
        it was said, it changes nothing."""
        in_time, call = c_uint32(), library.h26x_access_units_begin_at
        check(self._with_handle(call, number("sequence", sequence, 65535), byref(in_time)))
        return in_time.value == 1

    def restart(self) -> None:
        """For another sender (SSRC): drops all that waits or is open, and takes any number as the next.
        What was counted stays."""
        check(self._with_handle(library.h26x_access_units_restart))


def times_given(times: NackTimes) -> NackTimesGiven:
    """The times as C takes them. Raises ValueError."""
    return NackTimesGiven(
        tick("first", times.first), tick("again", times.again), number("most", times.most, 255)
    )


def tick(name: str, value: int) -> int:
    """A tick of the caller's clock. Raises ValueError."""
    return number(name, value, _TICKS)


def _wait(name: str, value: Optional[int]) -> int:
    """A number of ticks; None is without an end."""
    return _TICKS if value is None else tick(name, value)
