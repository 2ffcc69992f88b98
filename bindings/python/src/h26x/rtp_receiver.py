"""Access units of datagrams as a socket brings them: RTX and RED undone, and what to ask the sender for."""

from __future__ import annotations

from ctypes import byref, c_size_t
from dataclasses import dataclass
from enum import IntEnum
from typing import List, NamedTuple, Optional

from ._library import DatagramTold, Handle, PayloadTypesGiven, ReportGiven, SourcesGiven, library
from ._memory import Buffer, Room, as_bytes, number
from .access_unit_receiver import (
    AccessUnitConfig,
    GivesUnits,
    NackTimes,
    Pushed,
    settings,
    tick,
    times_given,
)
from .codec import codec_of
from .errors import check
from .rtcp import ReportBlock, RtpStatistics

_EACH_NUMBER = 2


class RtpPayloadTypes(NamedTuple):
    """The payload types of one stream, as a session description tells them. None may be one from 64 to 95, which are
    taken for RTCP (RFC 5761, 4), and one above 127 no packet has."""

    #: That of the codec.
    media: int
    #: That of retransmissions whose apt is `media` (RFC 4588, 8.1).
    rtx: Optional[int] = None
    #: That of redundant payloads.
    red: Optional[int] = None
    #: That of retransmissions whose apt is `red`, as Chromium has it.
    rtx_of_red: Optional[int] = None
    #: That of forward error correction, by itself or in RED (RFC 5109, 14).
    fec: Optional[int] = None

    def _numbers(self) -> PayloadTypesGiven:
        """It in numbers. Raises ValueError."""
        return PayloadTypesGiven(
            number("media", self.media, 255),
            *(number(name, it or 0, 255) for name, it in zip(self._fields[1:], self[1:])),
            *(it is not None for it in self[1:]),
        )


class RtpSources(NamedTuple):
    """The sources of one stream, by their SSRCs (RFC 3550, 8)."""

    #: That of its packets. None: that of the first packet of the codec or of RED is followed.
    media: Optional[int] = None
    #: That of its retransmissions, as `ssrc-group:FID` tells it (RFC 5576, 4.2). None: that of the first
    #: retransmission that bears a missing number (RFC 4588, 5.3). Tell it where several streams of a session may miss
    #: the same number at a time, as of simulcast.
    rtx: Optional[int] = None


class RtpBecame(IntEnum):
    """What became of a datagram that was given to an RtpReceiver. All but TAKEN change nothing."""

    #: It brought a packet of the stream.
    TAKEN = 0
    #: It is RTCP (RFC 5761), which `rtcp_packets` parts.
    RTCP = 1
    #: It is a retransmission of no packet.
    PROBE = 2
    #: It is of the codec or RED, and from another source: another stream, or this one with a new SSRC, which
    #: `follow` takes.
    NEW_SOURCE = 3
    #: It is any other packet from another source, as a retransmission of another stream.
    OTHER_SOURCE = 4


class NoMedia(IntEnum):
    """Why a packet of the stream bears nothing of the codec; its number isn't missing all the same."""

    #: It has no payload (RFC 3550, 5.1).
    PADDING_ALONE = 1
    #: It bears FEC (RFC 5109), which isn't decoded.
    FEC = 2
    #: It, or its primary block, has another payload type.
    OTHER_TYPE = 3


@dataclass(frozen=True)
class RtpTold:
    """What is told of a datagram."""

    became: RtpBecame
    #: Of NEW_SOURCE and OTHER_SOURCE: the other source; else None. What is below is of TAKEN.
    ssrc: Optional[int] = None
    #: Its number in the stream: of a retransmission that of the original.
    sequence: Optional[int] = None
    #: It came as a retransmission.
    is_recovered: bool = False
    #: Why it bears nothing of the codec, if it doesn't.
    no_media: Optional[NoMedia] = None
    #: Of NoMedia.OTHER_TYPE: which it has.
    payload_type: Optional[int] = None
    #: What became of its packet: of a retransmission of one that came TWICE or LATE.
    pushed: Optional[Pushed] = None
    #: How far it is behind the one that is due, where it is late; else 0.
    behind: int = 0


def _told(it: DatagramTold) -> RtpTold:
    became = RtpBecame(it.became)
    if became in (RtpBecame.NEW_SOURCE, RtpBecame.OTHER_SOURCE):
        return RtpTold(became, it.ssrc)
    if became != RtpBecame.TAKEN:
        return RtpTold(became)
    no_media = NoMedia(it.no_media) if it.no_media else None
    return RtpTold(
        became,
        sequence=it.sequence,
        is_recovered=it.is_recovered,
        no_media=no_media,
        payload_type=it.payload_type if no_media == NoMedia.OTHER_TYPE else None,
        pushed=Pushed(it.pushed),
        behind=it.behind,
    )


class RtpReceiver(GivesUnits):
    """Takes the datagrams of one stream as a socket brings them, and gives out access units: it reads RTP's header,
    undoes retransmissions (RTX; RFC 4588) and redundant payloads (RED; RFC 2198), puts packets in order as an
    AccessUnitReceiver does, and tells what to ask the sender for (RFC 4585) and what to report (RFC 3550). SRTP is the
    caller's to undo before.

    `now` is as an AccessUnitReceiver has it. Push what comes; take access units until there is none; and do so again
    at the `deadline`.

    One object may be used by several threads; one call at a time runs.

    >>> receiver = RtpReceiver(Codec.H264, RtpPayloadTypes(96, rtx=97))
    >>> def datagram(payload_type, sequence, timestamp, ssrc, payload):
    ...     header = RtpHeader(payload_type, sequence, timestamp, ssrc, marker=True)
    ...     return RtpDatagram(header, payload).write()
    >>> for payload_type, sequence, timestamp, ssrc, payload in (
    ...     (96, 7, 3000, 1, b"a\\x9a\\x01"),
    ...     (96, 9, 9000, 1, b"a\\x9a\\x03"),  # 8 is lost,
    ...     (97, 1, 6000, 2, b"\\0\\x08a\\x9a\\x02"),  # and sent again
    ... ):
    ...     told = receiver.push(0, 0, datagram(payload_type, sequence, timestamp, ssrc, payload))
    >>> told.sequence, told.is_recovered
    (8, True)
    >>> [(unit.timestamp, unit.data.hex()) for unit in receiver.units(0)]
    [(3000, '00000001619a01'), (6000, '00000001619a02'), (9000, '00000001619a03')]
    """

    _FREE = library.h26x_rtp_receiver_free
    _SET_CONFIG = library.h26x_rtp_receiver_set_config
    _NEXT = library.h26x_rtp_receiver_next
    _SO_FAR = library.h26x_rtp_receiver_so_far
    _DEADLINE = library.h26x_rtp_receiver_deadline
    _FINISH = library.h26x_rtp_receiver_finish
    _COUNT = library.h26x_rtp_receiver_count

    def __init__(
        self,
        codec: int,
        types: RtpPayloadTypes,
        config: AccessUnitConfig = AccessUnitConfig(),
        *,
        donl: bool = False,
        avc: bool = False,
    ) -> None:
        """A receiver that follows the SSRC of the first packet of the codec or of RED. What it raises is as of an
        AccessUnitReceiver."""
        made, wanted = Handle(), settings(codec_of(codec), config, donl, avc)
        check(library.h26x_rtp_receiver_new(byref(wanted), byref(types._numbers()), byref(made)))
        self._begin(codec_of(codec), made)

    def follow(self, sources: RtpSources) -> None:
        """Follows these sources from now on, as those of a session description, or of a new SSRC: all that waits or is
        open is dropped, any number is the next, and statistics begin anew. What was counted stays."""
        given = SourcesGiven(
            tick("media", sources.media or 0),
            tick("rtx", sources.rtx or 0),
            sources.media is not None,
            sources.rtx is not None,
        )
        check(self._with_handle(library.h26x_rtp_receiver_follow, byref(given)))

    def sources(self) -> RtpSources:
        """The sources that are followed, as far as they are known."""
        told = SourcesGiven()
        check(self._with_handle(library.h26x_rtp_receiver_sources, byref(told)))
        return RtpSources(
            told.media if told.has_media else None, told.rtx if told.has_rtx else None
        )

    def push(self, now: int, arrival: int, datagram: Buffer) -> RtpTold:
        """Takes a datagram that came at this tick: RTX and RED are undone, and the packet of the stream goes where
        `AccessUnitReceiver.push` has it. `arrival` is the same time in ticks of the timestamps' clock, of 90000 in a
        second, which goes round at 2**32, for the jitter that is reported. Then take access units until there is none:
        so none is FULL, which is to be given again, and counts as received each time.

        Raises RtpError of what is no RTP packet and RedError of what has no redundant payload where it should: a
        stranger's bytes, which are passed over; the latter's number stays missing. Raises OutOfMemory: the datagram
        can be given again. All these change nothing."""
        data, told = as_bytes(datagram), DatagramTold()
        given = (tick("now", now), tick("arrival", arrival), data, len(data), byref(told))
        check(self._with_handle(library.h26x_rtp_receiver_push, *given))
        return _told(told)

    def nacks(self, now: int, times: NackTimes, room: int = 512) -> List[int]:
        """The numbers that are missing and are to be asked for at this tick, in order, up to `room` of them, as those
        of `AccessUnitReceiver.nacks`: a GenericNack of `sources().media` asks for them. Raises OutOfMemory: nothing counts
        as asked for then."""
        count, to, wide = c_size_t(), Room(), number("room", room, 65536)
        to.grow(max(wide, 1) * _EACH_NUMBER)
        given = (tick("now", now), byref(times_given(times)), to.address, wide, byref(count))
        check(self._with_handle(library.h26x_rtp_receiver_nacks, *given))
        return to.view[: count.value * _EACH_NUMBER].cast("H").tolist()

    def keyframe_wanted(self, now: int, again: int) -> bool:
        """Whether to ask for a keyframe at this tick (PictureLoss or FullIntraRequest), which then counts as asked for:
        by the access units that ended no decoder can go on, and none was asked for in the last `again` ticks, in which
        it may be on its way: a round trip and a keyframe at least. Never before an access unit ended."""
        given = (tick("now", now), tick("again", again))
        return bool(self._with_handle(library.h26x_rtp_receiver_keyframe_wanted, *given))

    def statistics(self) -> RtpStatistics:
        """What is counted of the packets of the SSRC that is followed (RFC 3550, 6.4.1): those that came by it as
        received, and retransmissions that are kept as recovered."""
        counted = RtpStatistics()
        check(self._with_handle(library.h26x_rtp_receiver_statistics, byref(counted._kept)))
        return counted

    def report(self, last_sender_report: int = 0, delay: int = 0) -> Optional[ReportBlock]:
        """What is reported of the SSRC that is followed, as by `RtpStatistics.report`; None where it isn't known."""
        told = ReportGiven()
        given = (tick("last_sender_report", last_sender_report), tick("delay", delay), byref(told))
        is_known = self._with_handle(library.h26x_rtp_receiver_report, *given)
        return ReportBlock._of(told) if is_known else None
