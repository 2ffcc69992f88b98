"""Datagrams of a stream, with RTX (RFC 4588, 4), RED (RFC 2198, 3), FEC in RED (RFC 5109, 14.2) and padding alone. What
is expected is written out by hand."""

from typing import List, Optional, Tuple, Type

import pytest
from digits import some
from h26x import (
    AccessUnitConfig,
    AccessUnitReceiver,
    RtpBecame,
    Codec,
    Error,
    NackTimes,
    NoMedia,
    NotOfThisCodec,
    OutOfRange,
    Pushed,
    RedHeadersPastTheEnd,
    RtpDatagram,
    RtpHeader,
    RtpPayloadTypes,
    RtpReceiver,
    RtpSources,
    RtpTold,
    RtpTooShort,
    UnknownCodec,
)

TYPES = RtpPayloadTypes(96, rtx=97, red=98, rtx_of_red=99, fec=100)

#: A slice of a picture that others refer to, and one of a keyframe behind its parameter sets.
SLICE = some("619a01")
KEY = some("78 0004 6742c01f 0002 68ce 0002 6588")


def datagram(
    payload_type: int, sequence: int, timestamp: int, ssrc: int, payload: bytes = SLICE
) -> bytes:
    """A packet with the marker."""
    return RtpDatagram(RtpHeader(payload_type, sequence, timestamp, ssrc, True), payload).write()


def taken(
    sequence: int,
    is_recovered: bool = False,
    no_media: Optional[NoMedia] = None,
    payload_type: Optional[int] = None,
) -> RtpTold:
    return RtpTold(
        RtpBecame.TAKEN, None, sequence, is_recovered, no_media, payload_type, Pushed.HELD
    )


def test_originals_of_one_stream() -> None:
    pushes = [
        (datagram(96, 7, 1, 1, KEY), taken(7)),
        (datagram(98, 8, 2, 1, b"\x60" + SLICE), taken(8)),
        (datagram(96, 11, 5, 1), taken(11)),
        (datagram(97, 200, 3, 2, b"\0\x09" + SLICE), taken(9, True)),
        (datagram(99, 201, 4, 2, b"\0\x0a\x60" + SLICE), taken(10, True)),
        (datagram(98, 12, 5, 1, b"\x64\1"), taken(12, False, NoMedia.FEC)),
        (datagram(96, 13, 5, 1, b""), taken(13, False, NoMedia.PADDING_ALONE)),
        (datagram(101, 14, 5, 1, b"\1"), taken(14, False, NoMedia.OTHER_TYPE, 101)),
        (datagram(96, 15, 6, 1), taken(15)),
    ]
    units: List[Tuple[int, bool]] = []
    with RtpReceiver(Codec.H264, TYPES) as receiver:
        assert (receiver.sources(), receiver.report()) == (RtpSources(), None)
        for given, told in pushes:
            assert receiver.push(0, 0, given) == told
            units += [(unit.timestamp, unit.is_clean) for unit in receiver.units(0)]
        assert units == [(timestamp, True) for timestamp in range(1, 7)]
        assert receiver.sources() == RtpSources(1, 2)
        statistics = receiver.statistics()
        assert (statistics.received, statistics.recovered) == (7, 2)
        report = receiver.report(5, 6)
        assert report is not None
        assert (report.ssrc, report.lost, report.last_sender_report, report.delay) == (1, 2, 5, 6)
        counts = receiver.counts()
        assert (counts.lost, counts.skipped, counts.units) == (0, 3, 6)


@pytest.mark.parametrize(
    "given, told",
    [
        (datagram(72, 8, 1, 1), RtpTold(RtpBecame.RTCP)),
        (datagram(96, 8, 1, 3), RtpTold(RtpBecame.NEW_SOURCE, 3)),
        (datagram(97, 200, 1, 2, b"\0\x07" + SLICE), RtpTold(RtpBecame.OTHER_SOURCE, 2)),
        (datagram(97, 8, 1, 1, b"\0"), RtpTold(RtpBecame.PROBE)),
    ],
)
def test_what_changes_nothing(given: bytes, told: RtpTold) -> None:
    with RtpReceiver(Codec.H264, TYPES) as receiver:
        receiver.push(0, 0, datagram(96, 7, 1, 1, KEY))
        assert receiver.push(0, 0, given) == told
        assert (receiver.statistics().received, receiver.sources()) == (1, RtpSources(1))


@pytest.mark.parametrize(
    "given, refusal",
    [(b"\x80\x60", RtpTooShort), (datagram(98, 8, 1, 1, b"\xe0"), RedHeadersPastTheEnd)],
)
def test_what_is_refused(given: bytes, refusal: Type[Error]) -> None:
    with RtpReceiver(Codec.H264, TYPES) as receiver:
        receiver.push(0, 0, datagram(96, 7, 1, 1, KEY))
        with pytest.raises(refusal):
            receiver.push(0, 0, given)
        assert receiver.statistics().received == 1


def test_another_source_that_is_followed() -> None:
    with RtpReceiver(Codec.H264, TYPES) as receiver:
        receiver.push(0, 0, datagram(96, 7, 1, 1, KEY))
        receiver.follow(RtpSources(3, rtx=4))
        assert receiver.sources() == RtpSources(3, 4)
        assert receiver.push(0, 0, datagram(96, 8, 1, 1)) == RtpTold(RtpBecame.NEW_SOURCE, 1)
        assert receiver.push(0, 0, datagram(96, 8, 1, 3)) == taken(8)


def test_what_is_asked_for() -> None:
    times = NackTimes(first=10, again=50, most=2)
    with RtpReceiver(Codec.H264, TYPES) as receiver:

        def take(now: int, sequence: int, timestamp: int, payload: bytes) -> Tuple[List[int], bool]:
            receiver.push(now, 0, datagram(96, sequence, timestamp, 1, payload))
            list(receiver.units(now))
            return receiver.nacks(now, times, 8), receiver.keyframe_wanted(now, 100)

        assert take(0, 7, 1, KEY) == ([], False)
        assert take(5, 9, 3, SLICE) == ([], False)
        assert take(15, 10, 4, SLICE) == ([8], False)
        assert take(60, 11, 5, SLICE) == ([], False)
        assert take(65, 12, 6, SLICE) == ([8], False)
        receiver.finish()
        list(receiver.units(70))
        wanted = [receiver.keyframe_wanted(now, 100) for now in (70, 169, 170)]
        assert wanted == [True, False, True]
        receiver.push(171, 0, datagram(96, 20, 9, 1, KEY))
        list(receiver.units(171))
        assert not receiver.keyframe_wanted(300, 100)


def test_settings_and_refusals() -> None:
    with RtpReceiver(Codec.H264, TYPES, AccessUnitConfig(max_wait=9)) as receiver:
        receiver.push(0, 0, datagram(96, 7, 1, 1, KEY))
        receiver.push(0, 0, datagram(96, 9, 3, 1))
        assert [unit.timestamp for unit in receiver.units(0)] == [1]
        assert (receiver.deadline(), receiver.codec) == (9, Codec.H264)
        with pytest.raises(OutOfRange):
            receiver.set_config(AccessUnitConfig(window=0))
        receiver.set_config(AccessUnitConfig(max_wait=0))
        assert [unit.timestamp for unit in receiver.units(0)] == [3]
        with pytest.raises(TypeError):
            receiver.__copy__()
    with pytest.raises(ValueError):
        receiver.push(0, 0, b"")
    for types in (RtpPayloadTypes(256), RtpPayloadTypes(96, fec=-1)):
        with pytest.raises(ValueError):
            RtpReceiver(Codec.H264, types)
    with pytest.raises(NotOfThisCodec):
        RtpReceiver(Codec.H264, TYPES, donl=True)
    with pytest.raises(UnknownCodec):
        RtpReceiver(7, TYPES)


def test_it_is_an_access_unit_receiver_given_the_originals() -> None:
    """Both are given the same packets, the one as datagrams, with each third as a retransmission."""
    with RtpReceiver(Codec.H264, TYPES) as receiver, AccessUnitReceiver(Codec.H264) as other:
        receiver.follow(RtpSources(1, 2))
        for number in range(60):
            payload = KEY if number % 20 == 0 else SLICE + bytes([number])
            original = datagram(96, number, 10 * number, 1, payload)
            resent = datagram(97, number, 10 * number, 2, number.to_bytes(2, "big") + payload)
            receiver.push(number, 0, resent if number % 3 == 2 else original)
            other.push(number, RtpDatagram.read(original).packet())
            assert list(receiver.units(number)) == list(other.units(number))
        assert receiver.counts() == other.counts()
