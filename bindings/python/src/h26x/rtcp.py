"""What a receiver tells a sender by RTCP, and what is counted for it."""

from __future__ import annotations

from ctypes import byref, c_size_t, c_uint8, c_uint16, c_uint32, sizeof
from operator import index
from threading import Lock
from typing import Any, Iterator, List, NamedTuple, Optional, Sequence, Tuple

from ._library import ReportGiven, StatisticsKept, library
from ._memory import Buffer, Room, as_bytes, number
from .errors import NoRoom, check


def _ssrc(name: str, value: int) -> int:
    """A number of 32 bits. Raises ValueError."""
    return number(name, value, 0xFFFFFFFF)


def _written(call: Any, size: int, *given: Any) -> bytes:
    """What a call writes, which has so many bytes."""
    room, written = Room(), c_size_t()
    room.grow(size)
    check(call(*given, room.address, room.size, byref(written)))
    return room.copy(0, written.value)


def rtcp_packets(datagram: Buffer) -> Iterator[bytes]:
    """The packets of a datagram of RTCP, in their order: most RTCP is sent in compounds (RFC 3550, 6.1). It ends before
    the first that isn't of version 2, or isn't all there (A.2).

    >>> [packet[1] for packet in rtcp_packets(bytes.fromhex("80c90001 00000001 81ce0002 00000001 00000002"))]
    [201, 206]
    """
    return _rtcp_packets(as_bytes(datagram))


def _rtcp_packets(data: bytes) -> Iterator[bytes]:
    begin, end = 0, c_size_t()
    while library.h26x_rtcp_next(data, len(data), begin, byref(end)):
        yield data[begin : end.value]
        begin = end.value


class PictureLoss(NamedTuple):
    """A picture loss indication, which asks for a keyframe (PLI; RFC 4585, 6.3.1).

    >>> PictureLoss(1, 2).write().hex(" ", 4)
    '81ce0002 00000001 00000002'
    """

    #: The SSRC of who sends it.
    sender: int
    #: That of which a picture is lost.
    media: int

    def write(self) -> bytes:
        """Its 12 bytes. Of several RTCP packets each goes behind the one before."""
        given = (_ssrc("sender", self.sender), _ssrc("media", self.media))
        return _written(library.h26x_pli_write, 12, *given)

    @classmethod
    def read(cls, packet: Buffer) -> Optional[PictureLoss]:
        """That of an RTCP packet alone; None where the bytes are another."""
        data, sender, media = as_bytes(packet), c_uint32(), c_uint32()
        is_one = library.h26x_pli_read(data, len(data), byref(sender), byref(media))
        return cls(sender.value, media.value) if is_one else None


class FullIntraRequest(NamedTuple):
    """It asks one source for a keyframe (FIR; RFC 5104, 4.3.1)."""

    #: The SSRC of who sends it.
    sender: int
    #: That of which a keyframe is wanted.
    media: int
    #: One more, modulo 256, with each request, and the same where one is sent again.
    number: int

    def write(self) -> bytes:
        """Its 20 bytes."""
        given = (_ssrc("sender", self.sender), _ssrc("media", self.media))
        return _written(library.h26x_fir_write, 20, *given, number("number", self.number, 255))

    @classmethod
    def read(cls, packet: Buffer) -> Optional[FullIntraRequest]:
        """That of one source, an RTCP packet alone; None where the bytes are another."""
        data, sender, media, count = as_bytes(packet), c_uint32(), c_uint32(), c_uint8()
        told = (byref(sender), byref(media), byref(count))
        is_one = library.h26x_fir_read(data, len(data), *told)
        return cls(sender.value, media.value, count.value) if is_one else None


class GenericNack(NamedTuple):
    """It asks for packets of one source again (NACK; RFC 4585, 6.2.1).

    >>> packet, count = GenericNack(1, 2, [65535, 0, 7, 40]).write(1200)
    >>> packet.hex(" ", 4), count
    ('81cd0004 00000001 00000002 ffff0081 00280000', 4)
    >>> GenericNack.read(packet)
    GenericNack(sender=1, media=2, numbers=[65535, 0, 7, 40])
    """

    #: The SSRC of who sends it.
    sender: int
    #: That whose packets are asked for.
    media: int
    #: Their sequence numbers, at least one in what was read. Give them in ascending order, round 65536: one shares four
    #: bytes with those of the sixteen behind it.
    numbers: Sequence[int]

    def write(self, most: int) -> Tuple[bytes, int]:
        """A packet of at most so many bytes, which asks for the first numbers, as many as have room, and how many these
        are: write another one of the rest. No numbers make no packet. Raises NoRoom where `most` is below 16, which one
        number takes."""
        given = (_ssrc("sender", self.sender), _ssrc("media", self.media))
        numbers = [number("numbers", it, 0xFFFF) for it in self.numbers]
        asked, room, size, count = (c_uint16 * len(numbers))(*numbers), Room(), c_size_t(), c_size_t()
        # (the length of a packet says 65533 pairs at most)
        wide = min(number("most", most), 12 + 4 * min(len(numbers), 65533))
        room.grow(wide)
        to = (room.address, wide, byref(size), byref(count))
        code = library.h26x_nack_write(*given, bytes(asked), len(numbers), *to)
        if code == NoRoom.code:
            raise NoRoom(0, size.value)
        check(code)
        return room.copy(0, size.value), count.value

    @classmethod
    def read(cls, packet: Buffer) -> Optional[GenericNack]:
        """That of an RTCP packet alone; None where the bytes are another."""
        data, sender, media, count = as_bytes(packet), c_uint32(), c_uint32(), c_size_t()
        call, told = library.h26x_nack_read, (byref(sender), byref(media))
        if not call(data, len(data), *told, None, 0, byref(count)):
            return None
        room, size = Room(), count.value * sizeof(c_uint16)
        room.grow(size)
        call(data, len(data), *told, room.address, count.value, byref(count))
        numbers: List[int] = room.view[:size].cast("H").tolist()
        return cls(sender.value, media.value, numbers)


class ReportBlock(NamedTuple):
    """What a receiver reports of a source (RFC 3550, 6.4.1)."""

    #: The source.
    ssrc: int
    #: The part of packets that was lost since the last report, in 256ths.
    fraction_lost: int
    #: How many packets were lost, below 0 where more came than were expected: -2**23 to 2**23 - 1.
    lost: int
    #: The highest number that came, extended by how often numbers went round.
    highest: int
    #: The interarrival jitter, in ticks of the timestamps' clock.
    jitter: int
    #: The middle 32 bits of the NTP timestamp of the last sender report; 0 where none came.
    last_sender_report: int = 0
    #: How long ago that came, in 65536ths of a second; 0 where none came.
    delay: int = 0

    @classmethod
    def _of(cls, told: ReportGiven) -> ReportBlock:
        """That of its numbers."""
        return cls(*(getattr(told, name) for name in cls._fields))

    def _numbers(self) -> ReportGiven:
        """It in numbers. Raises ValueError."""
        lost = int.__index__(index(self.lost))
        if not -(2**31) <= lost < 2**31:
            raise ValueError(f"lost is {lost}, and not of 32 bits")
        return ReportGiven(
            _ssrc("ssrc", self.ssrc),
            lost,
            _ssrc("highest", self.highest),
            _ssrc("jitter", self.jitter),
            _ssrc("last_sender_report", self.last_sender_report),
            _ssrc("delay", self.delay),
            number("fraction_lost", self.fraction_lost, 255),
        )


class ReceiverReport(NamedTuple):
    """A receiver report of one source (RFC 3550, 6.4.2)."""

    #: The SSRC of who sends it.
    sender: int
    #: What is reported of the source.
    report: ReportBlock

    def write(self) -> bytes:
        """Its 32 bytes. What is lost is written in 24 bits, as near as these come."""
        given = (_ssrc("sender", self.sender), byref(self.report._numbers()))
        return _written(library.h26x_receiver_report_write, 32, *given)

    @classmethod
    def read(cls, packet: Buffer) -> Optional[ReceiverReport]:
        """That of one source, an RTCP packet alone; None where the bytes are another."""
        data, sender, told = as_bytes(packet), c_uint32(), ReportGiven()
        is_one = library.h26x_receiver_report_read(data, len(data), byref(sender), byref(told))
        return cls(sender.value, ReportBlock._of(told)) if is_one else None


class RtpStatistics:
    """What is counted of the packets of one source, an SSRC, for the reports of a receiver (RFC 3550, 6.4.1, A.1, A.3
    and A.8). Counts stay at 2**64 - 1.

    >>> it = RtpStatistics()
    >>> all(it.receive(100, sequence, 0, 10) for sequence in (65534, 0, 65535, 2))  # 1 is lost
    True
    >>> it.report(9)
    ReportBlock(ssrc=9, fraction_lost=51, lost=1, highest=65538, jitter=0, last_sender_report=0, delay=0)
    """

    def __init__(self) -> None:
        self._kept, self._lock = StatisticsKept(), Lock()

    def receive(self, arrival: int, sequence: int, timestamp: int, size: int) -> bool:
        """Counts a packet that came by its own SSRC, by its number, its timestamp and the bytes of its payload.
        `arrival` is when it came, in ticks of the timestamps' clock, which go round at 2**32.

        Whether it counts: one whose number jumps does only where it follows the one that jumped last, and with it the
        source begins anew (RFC 3550, A.1)."""
        given = (
            _ssrc("arrival", arrival),
            number("sequence", sequence, 0xFFFF),
            _ssrc("timestamp", timestamp),
            number("size", size),
        )
        with self._lock:
            return bool(library.h26x_rtp_statistics_receive(byref(self._kept), *given))

    def recover(self) -> None:
        """Counts a packet that came as a retransmission, or was restored."""
        with self._lock:
            library.h26x_rtp_statistics_recover(byref(self._kept))

    def report(self, ssrc: int, last_sender_report: int = 0, delay: int = 0) -> ReportBlock:
        """What is reported of the source, with the part that was lost since the last report (RFC 3550, 6.4.1 and A.3).
        Both others are 0 where no sender report came."""
        told = ReportGiven()
        given = (
            _ssrc("ssrc", ssrc),
            _ssrc("last_sender_report", last_sender_report),
            _ssrc("delay", delay),
        )
        with self._lock:
            library.h26x_rtp_statistics_report(byref(self._kept), *given, byref(told))
        return ReportBlock._of(told)

    def copy(self) -> RtpStatistics:
        """Another with the same counts."""
        made = RtpStatistics()
        with self._lock:
            made._kept = StatisticsKept.from_buffer_copy(self._kept)
        return made

    __copy__ = copy

    def _count(self, name: str) -> int:
        """A count by its name."""
        with self._lock:
            return int(getattr(self._kept, name))

    @property
    def expected(self) -> int:
        """How many numbers there are from the first to the highest."""
        return self._count("expected")

    @property
    def received(self) -> int:
        """How many packets came since the source began, those that came twice as often as they came."""
        return self._count("received")

    @property
    def bytes(self) -> int:
        """How many bytes of payload came."""
        return self._count("bytes")

    @property
    def recovered(self) -> int:
        """How many packets came as retransmissions, which aren't among those received."""
        return self._count("recovered")
