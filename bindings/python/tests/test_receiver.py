"""Receiving with sequence numbers (RFC 3550, 5.1): what is missing, late or too long."""

from typing import Optional

import pytest
from digits import FRAGMENTS, some
from h26x import (
    Codec,
    NaluTypeNotHandled,
    NotOfThisCodec,
    Outcome,
    Receiver,
    ShortPacket,
    UnknownCodec,
)
from rfc import annex_b, behind_lengths

IN_ORDER, GAP = Outcome.IN_ORDER, Outcome.GAP
TOO_LONG, LATE = Outcome.TOO_LONG, Outcome.LATE


def test_no_unit_of_which_a_packet_is_missing(codec: Codec) -> None:
    start, middle, end, unit = FRAGMENTS[codec]
    whole = annex_b([unit])
    receiver = Receiver(codec, 100)
    for sequence, packet, outcome, distance, data, run_len in (
        (65534, start, IN_ORDER, 0, b"", 2),
        (65535, middle, IN_ORDER, 0, b"", 4),
        (0, end, IN_ORDER, 0, whole, 0),
        # The middle is missing, and then the start.
        (1, start, IN_ORDER, 0, b"", 2),
        (3, end, GAP, 1, b"", 0),
        (5, middle, GAP, 1, b"", 0),
        (6, end, IN_ORDER, 0, b"", 0),
        # Those that are late or come twice leave the open unit.
        (7, start, IN_ORDER, 0, b"", 2),
        (7, start, LATE, 1, b"", 2),
        (2, middle, LATE, 6, b"", 2),
        (32776, middle, LATE, 32768, b"", 2),
        (8, middle, IN_ORDER, 0, b"", 4),
        (9, end, IN_ORDER, 0, whole, 0),
        (32777, start, GAP, 32767, b"", 2),
    ):
        keyframe: Optional[bool] = True if data else None
        assert receiver.receive(sequence, packet) == (outcome, distance, data, keyframe)
        assert receiver.run_len == run_len


def test_a_refused_packet_is_as_if_it_hadnt_come(codec: Codec) -> None:
    start, middle, end, unit = FRAGMENTS[codec]
    receiver = Receiver(codec, 100)
    receiver.receive(1, start)
    with pytest.raises(ShortPacket):
        receiver.receive(2, b"")
    assert receiver.run_len == 2
    assert receiver.receive(2, middle).outcome is IN_ORDER
    assert receiver.receive(3, end).data == annex_b([unit])
    with pytest.raises(ShortPacket):
        receiver.receive(4, b"")
    assert receiver.receive(5, start) == (GAP, 1, b"", None)


def test_numbers_of_a_refusal() -> None:
    with pytest.raises(NaluTypeNotHandled) as why:
        Receiver(Codec.H264, 100).receive(1, some("7f01"))
    assert why.value.type == 31


def test_the_open_unit_holds_no_more_than_the_limit(codec: Codec) -> None:
    start, middle, end, _ = FRAGMENTS[codec]
    receiver = Receiver(codec, 4)
    assert receiver.run_limit == 4
    for sequence, packet, outcome, run_len in (
        (1, start, IN_ORDER, 2),
        (2, middle, IN_ORDER, 4),
        (3, middle, TOO_LONG, 0),
        (4, end, IN_ORDER, 0),
    ):
        assert receiver.receive(sequence, packet) == (outcome, 0, b"", None)
        assert receiver.run_len == run_len
    receiver = Receiver(codec, 0)
    assert receiver.receive(1, start)[:2] == (TOO_LONG, 0)
    assert receiver.receive(4, start)[:2] == (TOO_LONG, 2)


def test_settings_and_copies(codec: Codec) -> None:
    start, middle, end, unit = FRAGMENTS[codec]
    receiver = Receiver(codec, 100, avc=True)
    receiver.receive(1, start)
    receiver.receive(2, middle)
    copy = receiver.copy()
    assert (copy.avc, copy.run_limit, copy.run_len, copy.codec) == (True, 100, 4, codec)
    assert copy.receive(3, end).data == behind_lengths([unit])
    assert copy.receive(3, end)[:2] == (LATE, 1)
    receiver.avc = False
    assert not receiver.avc and receiver.receive(3, end).data == annex_b([unit])


def test_numbers_that_bear_nothing(codec: Codec) -> None:
    start, middle, end, unit = FRAGMENTS[codec]
    receiver = Receiver(codec, 100)
    receiver.receive(65534, start)
    assert receiver.skip(65535) == (IN_ORDER, 0)
    assert receiver.receive(0, middle).outcome is IN_ORDER
    assert receiver.receive(1, end).data == annex_b([unit])
    receiver.receive(2, start)
    assert receiver.skip(2) == (LATE, 1)
    assert receiver.run_len == 2
    assert receiver.skip(5) == (GAP, 2)
    assert receiver.run_len == 0
    assert receiver.receive(6, end) == (IN_ORDER, 0, b"", None)


def test_a_restart_takes_any_number(codec: Codec) -> None:
    start, _, end, _ = FRAGMENTS[codec]
    receiver = Receiver(codec, 100)
    receiver.receive(6, start)
    assert receiver.receive(40000, end).outcome is LATE
    receiver.restart()
    assert receiver.run_len == 0
    assert receiver.receive(40000, end) == (IN_ORDER, 0, b"", None)


def test_decoding_order_numbers() -> None:
    receiver = Receiver(Codec.H265, 100, donl=True)
    assert receiver.receive(1, some("02010005aa")).data == some("00000001 0201aa")
    receiver.donl = False
    assert not receiver.donl
    assert receiver.receive(2, some("0201bbcc")).data == some("00000001 0201bbcc")
    receiver = Receiver(Codec.H266, 100, donl=True)
    assert receiver.receive(1, some("00390002dd")) == (IN_ORDER, 0, some("00000001 0039dd"), True)


def test_refused_settings() -> None:
    with pytest.raises(UnknownCodec):
        Receiver(263, 9)
    with pytest.raises(NotOfThisCodec):
        Receiver(Codec.H264, 9, donl=True)
    receiver = Receiver(Codec.H264, 9)
    with pytest.raises(NotOfThisCodec):
        receiver.donl = False
    for limit in (-1, 2**64):
        with pytest.raises(ValueError):
            Receiver(Codec.H264, limit)


@pytest.mark.parametrize("sequence", [-1, 65536, 2**32])
def test_numbers_that_are_no_sequence_numbers(sequence: int) -> None:
    receiver = Receiver(Codec.H264, 100)
    assert receiver.receive(0, b"\x61\xff").outcome is IN_ORDER
    with pytest.raises(ValueError, match="sequence"):
        receiver.receive(sequence, b"\x61\xff")
    assert receiver.receive(1, b"\x61\xff").outcome is IN_ORDER
