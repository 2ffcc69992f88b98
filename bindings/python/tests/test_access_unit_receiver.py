"""Access units of packets that come in any order, some lost and some twice.

Expected answers are written out by the definitions of crates/h26x_access_units: which packet is due, what
is told of an access unit, what is counted.
"""

import copy
import pickle
from dataclasses import replace
from typing import Any, Callable, Dict, List, Tuple

import pytest
from digits import FRAGMENTS, many, some
from h26x import (
    AccessUnit,
    AccessUnitConfig,
    AccessUnitReceiver,
    Codec,
    Counts,
    NotOfThisCodec,
    OutOfRange,
    Pushed,
    RtpPacket,
    UnitsSoFar,
    UnknownCodec,
)
from rfc import annex_b, is_key

HELD, LATE, TWICE = Pushed.HELD, Pushed.LATE, Pushed.TWICE
FULL, STRAY, ANEW = Pushed.FULL, Pushed.STRAY, Pushed.ANEW

#: A window of 4 packets, a wait of 100 ticks, at the beginning too, and 20 bytes of payloads; no number is
#: too far, and the decoder has the parameter sets.
SMALL = AccessUnitConfig(
    window=4,
    far=0,
    max_wait=100,
    begin_wait=100,
    held_limit=20,
    run_limit=1000,
    unit_limit=1000,
    has_sets=True,
)
AT_ONCE = replace(SMALL, window=1)

#: The second slice of a keyframe, and the first slices of one and of another picture, which are packets as they stand.
LATER = {Codec.H264: some("6540"), Codec.H265: some("26012c"), Codec.H266: some("004140")}
PICTURES: Dict[Codec, Tuple[bytes, bytes]] = {
    codec: (many(digits)[0], many(digits)[1])
    for codec, digits in (
        (Codec.H264, "6588|619a"),
        (Codec.H265, "2601ac|0201d0"),
        (Codec.H266, "0041c0|0001c0"),
    )
}


def pushes(
    receiver: AccessUnitReceiver,
    now: int,
    packet: Tuple[int, int, bool, bytes],
    wanted: Pushed = HELD,
    behind: int = 0,
) -> None:
    """Gives a packet, and compares what became of it."""
    assert receiver.push(now, RtpPacket(*packet)) == (wanted, behind)


def gives(receiver: AccessUnitReceiver, now: int, *wanted: AccessUnit) -> None:
    """Compares all access units that have ended at a tick."""
    assert list(receiver.units(now)) == list(wanted)
    assert receiver.next(now) is None


def one(codec: Codec, timestamp: int, sequence: int, unit: bytes, **told: Any) -> AccessUnit:
    """An access unit of one packet, not known to be whole but where it is told."""
    there = AccessUnit(
        timestamp=timestamp,
        data=annex_b([unit]),
        is_keyframe=is_key(codec, unit),
        is_whole=False,
        is_clean=False,
        is_disposable=False,
        continues=False,
        first=sequence,
        last=sequence,
        missing=0,
    )
    return replace(there, **told)


def test_packets_missing_late_and_twice(codec: Codec) -> None:
    """The numbers and the ticks go round, and each packet is waited for so long, or by the window."""
    receiver, (start, middle, end, whole) = AccessUnitReceiver(codec, SMALL), FRAGMENTS[codec]
    key, slice_ = PICTURES[codec]
    assert receiver.deadline() is None
    pushes(receiver, 0xFFFF_FFF0, (65534, 0, True, key))
    # Packets before the first may come still.
    gives(receiver, 0xFFFF_FFF0)
    assert receiver.missing() == []
    assert receiver.deadline() == 0x54
    gives(receiver, 0x53)
    # Nobody knows whether one is missing before the first.
    gives(receiver, 0x54, one(codec, 0, 65534, key, is_clean=True))
    assert receiver.deadline() is None
    # The middle fragment comes last, the others twice.
    pushes(receiver, 100, (65535, 3000, False, start))
    gives(receiver, 100)
    pushes(receiver, 101, (1, 3000, True, end))
    pushes(receiver, 101, (1, 3000, True, end), TWICE)
    pushes(receiver, 101, (65535, 3000, False, start), TWICE)
    gives(receiver, 101)
    assert receiver.missing() == [0]
    pushes(receiver, 102, (0, 3000, False, middle))
    assert receiver.missing() == []
    gives(receiver, 102, one(codec, 3000, 65535, whole, last=1, is_whole=True, is_clean=True))
    # 2 and 4 are missing: 6 is a window, less one, ahead of 3.
    pushes(receiver, 103, (3, 6000, True, slice_))
    pushes(receiver, 104, (5, 9000, True, slice_))
    assert receiver.missing() == [2, 4]
    gives(receiver, 104)
    pushes(receiver, 105, (6, 12000, True, slice_))
    gives(receiver, 105, one(codec, 6000, 3, slice_, missing=1))
    assert receiver.deadline() == 204
    gives(receiver, 203)
    two = one(codec, 9000, 5, slice_, missing=1), one(codec, 12000, 6, slice_, is_whole=True)
    gives(receiver, 204, *two)
    pushes(receiver, 205, (4, 9000, True, slice_), LATE, 3)
    assert receiver.counts() == Counts(taken=7, lost=2, late=1, twice=2, units=5, whole=2)


def test_units_before_their_access_unit_has_ended(codec: Codec) -> None:
    """A unit is shown with its last fragment, and once its access unit has ended that is given out first."""
    receiver, (start, middle, end, whole) = AccessUnitReceiver(codec, AccessUnitConfig()), FRAGMENTS[codec]
    later = LATER[codec]
    assert receiver.units_so_far() is None
    for number, fragment in ((7, start), (8, middle)):
        pushes(receiver, 0, (number, 3000, False, fragment))
        gives(receiver, 0)
        assert receiver.units_so_far() == UnitsSoFar(3000, b"", None)
    pushes(receiver, 0, (9, 3000, False, end))
    assert receiver.units_so_far() == UnitsSoFar(3000, annex_b([whole]), True)
    assert receiver.units_so_far(10) == UnitsSoFar(3000, annex_b([whole])[10:], True)
    assert receiver.units_so_far(99) == UnitsSoFar(3000, b"", True)
    pushes(receiver, 0, (10, 3000, True, later))
    assert receiver.units_so_far() is None
    unit = receiver.next(0)
    assert unit is not None and unit.data == annex_b([whole, later])
    assert receiver.units_so_far() is None
    with pytest.raises(ValueError):
        receiver.units_so_far(-1)


def test_settings_that_change(codec: Codec) -> None:
    """While a packet waits: with a window of 1 it is due."""
    receiver, (key, slice_) = AccessUnitReceiver(codec, SMALL), PICTURES[codec]
    pushes(receiver, 0, (10, 0, True, key))
    gives(receiver, 100, one(codec, 0, 10, key, is_clean=True))
    pushes(receiver, 100, (12, 3000, True, slice_))
    for window in (0, 2**14 + 1):
        with pytest.raises(OutOfRange):
            receiver.set_config(replace(SMALL, window=window))
        gives(receiver, 100)
        assert receiver.deadline() == 200
    receiver.set_config(AT_ONCE)
    gives(receiver, 100, one(codec, 3000, 12, slice_, missing=1))
    receiver.close()
    with pytest.raises(ValueError):
        receiver.set_config(AT_ONCE)


def test_markers_of_peers(codec: Codec) -> None:
    """None, one on a fragment in the middle, and one on each slice."""
    receiver, (start, middle, end, _) = AccessUnitReceiver(codec, AT_ONCE), FRAGMENTS[codec]
    (key, slice_), more = PICTURES[codec], LATER[codec]
    pushes(receiver, 0, (10, 0, True, key))
    gives(receiver, 0, one(codec, 0, 10, key, is_clean=True))
    # Without a marker the next timestamp is the end.
    pushes(receiver, 0, (11, 3000, False, slice_))
    pushes(receiver, 0, (12, 3000, False, more))
    gives(receiver, 0)
    pushes(receiver, 0, (13, 6000, True, key))
    clean = {"is_whole": True, "is_clean": True}
    two = one(codec, 3000, 11, more, data=annex_b([slice_, more]), last=12, **clean)
    gives(receiver, 0, two, one(codec, 6000, 13, key, **clean))
    # The run that is open at the marker goes with it, and the last fragment is left alone: neither half has bytes.
    pushes(receiver, 0, (14, 9000, False, start))
    pushes(receiver, 0, (15, 9000, True, middle))
    gives(receiver, 0)
    pushes(receiver, 0, (16, 9000, True, end))
    gives(receiver, 0)
    pushes(receiver, 0, (17, 12000, True, key))
    gives(receiver, 0, one(codec, 12000, 17, key, **clean))
    # Nothing is missing, but nobody knows whether the picture goes on again; from then on the next timestamp is the
    # end.
    pushes(receiver, 0, (18, 12000, True, more))
    gives(receiver, 0)
    pushes(receiver, 0, (19, 15000, True, slice_))
    gives(receiver, 0, one(codec, 12000, 18, more, continues=True, is_clean=True))
    assert receiver.counts() == Counts(taken=10, units=5, whole=3, unbelieved=2)


def test_numbers_that_bear_nothing(codec: Codec) -> None:
    """Padding alone has no payload; forward error correction and other payload types are skipped. None is
    missing, and a unit around them stays open."""
    receiver, (start, middle, end, whole) = AccessUnitReceiver(codec, AT_ONCE), FRAGMENTS[codec]
    key, slice_ = PICTURES[codec]
    pushes(receiver, 0, (65533, 0, True, key))
    gives(receiver, 0, one(codec, 0, 65533, key, is_clean=True))
    pushes(receiver, 0, (65534, 3000, False, start))
    pushes(receiver, 0, (65535, 3000, True, b""))
    assert receiver.skip(0, 0) == (HELD, 0)
    pushes(receiver, 0, (1, 3000, False, middle))
    pushes(receiver, 0, (2, 3000, True, end))
    gives(receiver, 0, one(codec, 3000, 65534, whole, last=2, is_whole=True, is_clean=True))
    # Behind one that is missing, a number that bears nothing hides no loss.
    assert receiver.skip(0, 4) == (HELD, 0)
    pushes(receiver, 0, (5, 6000, True, slice_))
    gives(receiver, 0, one(codec, 6000, 5, slice_, missing=1))
    assert receiver.skip(0, 4) == (TWICE, 0)
    assert receiver.counts() == Counts(taken=5, lost=1, twice=1, skipped=3, units=3, whole=1)


def test_strays_and_a_stream_that_begins_anew(codec: Codec) -> None:
    """A number too far away waits alone, and begins the stream anew where the next one follows it."""
    receiver = AccessUnitReceiver(codec, replace(SMALL, far=100))
    key, slice_ = PICTURES[codec]
    pushes(receiver, 0, (10, 0, True, key))
    gives(receiver, 100, one(codec, 0, 10, key, is_clean=True))
    # 11 is due: 110 is 99 ahead. So 111 is a stray, and so is 10111, which takes its place.
    pushes(receiver, 100, (111, 3000, True, slice_), STRAY)
    pushes(receiver, 100, (10111, 3000, True, slice_), STRAY)
    pushes(receiver, 100, (112, 3000, True, slice_), STRAY)
    pushes(receiver, 100, (11, 3000, False, slice_))
    gives(receiver, 100)
    pushes(receiver, 100, (13, 4500, False, slice_))
    # The sender begins anew 20,000 back: what is open ends, and what waits is dropped.
    pushes(receiver, 100, (45547, 6000, True, key), STRAY)
    pushes(receiver, 100, (45548, 9000, True, slice_), ANEW)
    gives(receiver, 100, one(codec, 3000, 11, slice_))
    gives(receiver, 199)
    next_ = one(codec, 9000, 45548, slice_, is_whole=True, is_clean=True)
    gives(receiver, 200, one(codec, 6000, 45547, key, is_clean=True), next_)
    assert receiver.counts() == Counts(taken=4, lost=1, stray=4, anew=1, units=4, whole=1)
    # Where none is too far, one behind is late.
    receiver = AccessUnitReceiver(codec, SMALL)
    pushes(receiver, 0, (10, 0, True, key))
    gives(receiver, 100, one(codec, 0, 10, key, is_clean=True))
    pushes(receiver, 100, (45547, 3000, True, key), LATE, 20000)


def test_limits_of_what_waits(codec: Codec) -> None:
    receiver, slice_ = AccessUnitReceiver(codec, SMALL), LATER[codec]
    long = slice_ + bytes(15 - len(slice_))
    # 15 bytes wait, then 30, which is past 20: no more, and the first are due.
    pushes(receiver, 0, (10, 0, False, long))
    gives(receiver, 0)
    pushes(receiver, 0, (11, 0, False, long))
    pushes(receiver, 0, (12, 0, True, long), FULL)
    gives(receiver, 0)
    pushes(receiver, 0, (12, 0, True, long))
    gives(receiver, 0, one(codec, 0, 10, slice_, data=annex_b([long] * 3), last=12))


def test_limits_of_what_is_open(codec: Codec) -> None:
    """What is longer is given up, and nothing else."""
    start, middle, end, _ = FRAGMENTS[codec]
    key, slice_ = PICTURES[codec]
    receiver = AccessUnitReceiver(codec, replace(AT_ONCE, run_limit=3))
    pushes(receiver, 0, (10, 0, True, key))
    pushes(receiver, 0, (11, 3000, False, slice_))
    pushes(receiver, 0, (12, 3000, False, start))
    pushes(receiver, 0, (13, 3000, False, middle))
    pushes(receiver, 0, (14, 3000, True, end))
    first = one(codec, 0, 10, key, is_clean=True)
    gives(receiver, 0, first, one(codec, 3000, 11, slice_, last=14))
    assert receiver.counts() == Counts(taken=5, units=2, units_given_up=1)

    receiver = AccessUnitReceiver(codec, replace(AT_ONCE, unit_limit=2 * len(annex_b([slice_]))))
    pushes(receiver, 0, (10, 0, True, key))
    gives(receiver, 0, first)
    for sequence in range(11, 14):
        pushes(receiver, 0, (sequence, 3000, False, slice_))
        gives(receiver, 0)
        given_up = sequence // 13
        assert receiver.counts() == Counts(taken=sequence - 9, units=1, texts_given_up=given_up)
    pushes(receiver, 0, (14, 3000, True, key))
    gives(receiver, 0, one(codec, 3000, 11, key, last=14))


def test_the_end_of_a_stream_and_another_sender(codec: Codec) -> None:
    receiver, (key, slice_) = AccessUnitReceiver(codec, SMALL), PICTURES[codec]
    pushes(receiver, 0, (10, 0, True, key))
    pushes(receiver, 0, (12, 3000, False, slice_))
    gives(receiver, 0)
    receiver.finish()
    first = one(codec, 0, 10, key, is_clean=True)
    gives(receiver, 0, first, one(codec, 3000, 12, slice_, missing=1))
    assert receiver.deadline() is None
    # Any number is next, and then what waits is dropped.
    pushes(receiver, 0, (40000, 6000, True, key))
    assert receiver.deadline() == 100
    receiver.restart()
    assert receiver.deadline() is None
    gives(receiver, 100)
    pushes(receiver, 100, (7, 9000, False, key))
    gives(receiver, 200)
    # So is what is open.
    receiver.restart()
    receiver.finish()
    gives(receiver, 200)
    assert receiver.counts() == Counts(taken=3, lost=1, units=2)


def test_refused_packets(codec: Codec) -> None:
    """They are passed over, and count as missing."""
    refused = {Codec.H264: some("7c"), Codec.H265: some("a601ff"), Codec.H266: some("8039ff")}
    receiver, (key, slice_) = AccessUnitReceiver(codec, AT_ONCE), PICTURES[codec]
    pushes(receiver, 0, (10, 0, True, key))
    pushes(receiver, 0, (11, 3000, True, refused[codec]))
    pushes(receiver, 0, (12, 6000, True, slice_))
    first = one(codec, 0, 10, key, is_clean=True)
    gives(receiver, 0, first, one(codec, 6000, 12, slice_, missing=1))
    assert receiver.counts() == Counts(taken=2, lost=1, refused=1, units=2)


def test_defaults() -> None:
    receiver, (key, slice_) = AccessUnitReceiver(Codec.H264), PICTURES[Codec.H264]
    assert receiver.codec is Codec.H264
    # The first packet waits for none, and without parameter sets it isn't clean.
    pushes(receiver, 7, (1000, 0, True, key))
    assert receiver.deadline() == 7
    gives(receiver, 7, one(Codec.H264, 0, 1000, key))
    # 1512 is 510 ahead of the one behind which 1001 is missing, 1513 a window of 512, less one.
    pushes(receiver, 7, (1002, 3000, True, slice_))
    assert receiver.deadline() is None
    pushes(receiver, 2**32 - 1, (1512, 6000, True, slice_))
    gives(receiver, 2**32 - 1)
    pushes(receiver, 2**32 - 1, (1513, 9000, True, slice_))
    gives(receiver, 2**32 - 1, one(Codec.H264, 3000, 1002, slice_, missing=1))
    # The newest that waits is 1513: 4512 is 2999 ahead.
    pushes(receiver, 0, (4513, 12000, True, slice_), STRAY)
    pushes(receiver, 0, (4512, 12000, True, slice_), Pushed.JUMPED)
    # 8,000,000 bytes may wait, and a packet.
    receiver = AccessUnitReceiver(Codec.H264, AccessUnitConfig(window=1 << 14))
    packet = b"\x61" + bytes(49_999)
    for n in range(161):
        pushes(receiver, 0, (2 * n, 0, False, packet))
    pushes(receiver, 0, (400, 0, False, packet), FULL)


@pytest.mark.parametrize("more", [0, 1])
def test_default_limits_of_what_is_open(more: int) -> None:
    """An open unit may hold 4,000,000 bytes, an open access unit 8,000,000."""
    receiver = AccessUnitReceiver(Codec.H264, AccessUnitConfig(window=1))
    pushes(receiver, 0, (1, 0, False, b"\x7c\x85" + bytes(4_000_000 + more)))
    pushes(receiver, 0, (2, 0, True, b"\x7c\x45\xff"))
    assert [len(unit.data) for unit in receiver.units(0)] == [4_000_006][more:]
    assert receiver.counts().units_given_up == more
    receiver = AccessUnitReceiver(Codec.H264, AccessUnitConfig(window=1))
    pushes(receiver, 0, (1, 0, False, b"\x61" + bytes(8_000_000 - 5 + more)))
    receiver.finish()
    assert [len(unit.data) for unit in receiver.units(0)] == [8_000_000][more:]
    assert receiver.counts().texts_given_up == more


def test_settings_of_nothing() -> None:
    """No wait, and limits of 0 bytes: what waits is due, and what is open between packets is given up."""
    key, slice_ = PICTURES[Codec.H264]
    receiver = AccessUnitReceiver(Codec.H264, AccessUnitConfig(max_wait=0))
    pushes(receiver, 5, (1000, 0, True, key))
    assert receiver.deadline() == 5
    gives(receiver, 5, one(Codec.H264, 0, 1000, key))
    limits = AccessUnitConfig(held_limit=0, run_limit=0, unit_limit=0)
    receiver = AccessUnitReceiver(Codec.H264, limits)
    pushes(receiver, 0, (1000, 0, True, key))
    pushes(receiver, 0, (1001, 3000, True, key), FULL)
    gives(receiver, 0, one(Codec.H264, 0, 1000, key))
    pushes(receiver, 0, (1001, 3000, False, slice_))
    gives(receiver, 0)
    pushes(receiver, 0, (1002, 3000, True, FRAGMENTS[Codec.H264].start))
    gives(receiver, 0)
    assert receiver.counts() == Counts(taken=3, units=1, units_given_up=1, texts_given_up=1)


def test_refused_settings() -> None:
    with pytest.raises(UnknownCodec):
        AccessUnitReceiver(263)
    with pytest.raises(NotOfThisCodec):
        AccessUnitReceiver(Codec.H264, donl=True)
    for window in (0, 2**14 + 1):
        with pytest.raises(OutOfRange):
            AccessUnitReceiver(Codec.H264, AccessUnitConfig(window=window))
    AccessUnitReceiver(Codec.H264, AccessUnitConfig(window=2**14))
    wrong: List[Dict[str, Any]] = [
        {"window": -1},
        {"window": 2**16 + 1},
        {"far": 2**16},
        {"max_wait": -1},
        {"max_wait": 2**32},
        {"begin_wait": -1},
        {"begin_wait": 2**32},
        {"held_limit": -1},
        {"run_limit": 2**64},
        {"unit_limit": -1},
    ]
    for settings in wrong:
        with pytest.raises(ValueError, match=next(iter(settings))):
            AccessUnitReceiver(Codec.H264, AccessUnitConfig(**settings))


@pytest.mark.parametrize(
    "name, now, packet",
    [
        ("now", 2**32, (1, 0, True, b"\x61\xff")),
        ("now", -1, (1, 0, True, b"\x61\xff")),
        ("sequence", 0, (65536, 0, True, b"\x61\xff")),
        ("sequence", 0, (-1, 0, True, b"\x61\xff")),
        ("timestamp", 0, (1, 2**32, True, b"\x61\xff")),
    ],
)
def test_numbers_that_are_none(name: str, now: int, packet: Tuple[int, int, bool, bytes]) -> None:
    receiver = AccessUnitReceiver(Codec.H264, AT_ONCE)
    with pytest.raises(ValueError, match=name):
        receiver.push(now, RtpPacket(*packet))
    if name != "timestamp":
        with pytest.raises(ValueError, match=name):
            receiver.skip(now, packet[0])
    if name == "sequence":
        with pytest.raises(ValueError, match=name):
            receiver.begin_at(packet[0])
    if name == "now":
        with pytest.raises(ValueError, match=name):
            receiver.next(now)
    gives(receiver, 0)
    assert receiver.counts() == Counts()


@pytest.mark.parametrize(
    "codec, packet", [(Codec.H265, "26010005aa"), (Codec.H266, "00390005aa")]
)
def test_forms_of_units(codec: Codec, packet: str) -> None:
    receiver = AccessUnitReceiver(codec, AT_ONCE, donl=True, avc=True)
    pushes(receiver, 0, (1, 0, True, some(packet)))
    unit = some(packet)[:2] + b"\xaa"
    gives(receiver, 0, one(codec, 0, 1, unit, data=b"\0\0\0\3" + unit, is_clean=True))


def test_long_access_units() -> None:
    """The memory that is written to grows and is kept, and no answer is a part of it."""
    limits = AccessUnitConfig(window=1)
    receiver = AccessUnitReceiver(Codec.H264, limits)
    sizes = [2, 60000, 3, 65507, 60001, 2]
    for n, size in enumerate(sizes):
        pushes(receiver, 0, (n, n, True, b"\x61" * size))
    assert [unit.data for unit in receiver.units(0)] == [annex_b([b"\x61" * n]) for n in sizes]


def test_every_form_of_payload() -> None:
    receiver = AccessUnitReceiver(Codec.H264, AT_ONCE)
    payload = bytearray(b"\x61\x09")
    receiver.push(0, RtpPacket(1, 0, True, payload))
    # It is copied.
    payload[:] = b"xx"
    receiver.push(0, RtpPacket(2, 1, True, memoryview(b"?\x61\x08")[1:]))
    assert [unit.data[4:] for unit in receiver.units(0)] == [b"\x61\x09", b"\x61\x08"]
    wrong: List[Any] = ["61", None, 5]
    for nothing in wrong:
        with pytest.raises(TypeError):
            receiver.push(0, RtpPacket(3, 2, True, nothing))


def test_it_has_no_copy() -> None:
    """A copy would free the same handle again."""
    receiver = AccessUnitReceiver(Codec.H264)
    ways: List[Callable[[Any], Any]] = [copy.copy, copy.deepcopy, pickle.dumps]
    for way in ways:
        with pytest.raises(TypeError):
            way(receiver)
    assert receiver.counts() == Counts()
