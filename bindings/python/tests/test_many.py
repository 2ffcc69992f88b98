"""Many packets in one call, beside the same packets one by one."""

import random
from typing import Any, Iterator, List, Tuple, Union

import pytest

from h26x import (
    AccessUnitConfig,
    AccessUnitReceiver,
    Codec,
    Error,
    Packetizer,
    Pushed,
    Received,
    Receiver,
    RtpPacket,
)

SETS = bytes.fromhex("0000016742001eda0000000168ce3c800000016588")


def arrivals(drawn: random.Random) -> List[RtpPacket]:
    """Packets of some pictures as a network brings them: some lost, some twice, some too early."""
    came: List[RtpPacket] = []
    sequence = 65500
    with Packetizer(Codec.H264) as packetizer:
        for picture in range(20):
            unit = SETS + b"\x55" * drawn.randrange(5000)
            packets = packetizer.packetize_units(700, unit)
            for place, packet in enumerate(packets):
                sequence = (sequence + 1) % 65536
                fate = drawn.randrange(20)
                marker = place + 1 == len(packets)
                one = RtpPacket(sequence, picture * 3000, marker, bytes(packet))
                came += [one] * (0 if fate == 0 else 2 if fate == 1 else 1)
                if fate == 2 and len(came) > 2:
                    came[-1], came[-3] = came[-3], came[-1]
    return came


def parts(drawn: random.Random, packets: List[RtpPacket]) -> Iterator[List[RtpPacket]]:
    while packets:
        count = drawn.randrange(1, 24)
        yield packets[:count]
        packets = packets[count:]


@pytest.mark.parametrize("held", [8_000_000, 2000])
def test_pushed_together_as_one_by_one(held: int) -> None:
    drawn = random.Random(1)
    config = AccessUnitConfig(window=8, max_wait=100, held_limit=held)
    one, together = AccessUnitReceiver(Codec.H264, config), AccessUnitReceiver(Codec.H264, config)
    now, were_full = 0, 0
    for part in parts(drawn, arrivals(drawn)):
        while part:
            now += 20
            wanted: List[Tuple[Pushed, int]] = []
            for packet in part:
                wanted.append(one.push(now, packet))
                if wanted[-1][0] == Pushed.FULL:
                    break
            assert together.push_all(now, part) == wanted
            assert list(together.units(now)) == list(one.units(now))
            is_full = wanted[-1][0] == Pushed.FULL
            were_full += is_full
            part = part[len(wanted) - is_full :]
    assert one.counts() == together.counts()
    assert (were_full > 0) == (held == 2000)


def one_by_one(receiver: Receiver, number: int, payload: Any) -> Union[Received, Error]:
    try:
        return receiver.receive(number, payload)
    except Error as error:
        return error


def in_words(became: Union[Received, Error]) -> Any:
    return (type(became), str(became)) if isinstance(became, Error) else became


def test_received_together_as_one_by_one() -> None:
    drawn = random.Random(2)
    one, together = Receiver(Codec.H264, 1_000_000), Receiver(Codec.H264, 1_000_000)
    for part in parts(drawn, arrivals(drawn)):
        packets = [(it.sequence, it.payload) for it in part]
        packets.insert(drawn.randrange(len(packets) + 1), (packets[0][0], b"\x7c"))
        wanted = [in_words(one_by_one(one, *packet)) for packet in packets]
        assert [in_words(it) for it in together.receive_all(packets)] == wanted
        assert one.run_len == together.run_len


def test_more_than_there_was_room_for() -> None:
    packets = [(place, bytes([0x7C, 0x85 if place == 0 else 5]) + b"\x01" * 999) for place in range(9)]
    with Receiver(Codec.H264, 1_000_000) as receiver:
        for part in packets:
            assert receiver.receive_all([part])[0] == (0, 0, b"", None)
        last, unit = receiver.receive_all([(9, b"\x7c\x45\x02"), (10, b"\x41\x09")])
    assert isinstance(last, Received) and isinstance(unit, Received)
    assert last.data == b"\0\0\0\1\x65" + b"\x01" * 8991 + b"\x02" and last.is_keyframe
    assert unit.data == b"\0\0\0\1\x41\x09" and not unit.is_keyframe


def test_nothing_and_what_is_no_packet() -> None:
    with AccessUnitReceiver(Codec.H264) as units, Receiver(Codec.H264, 1000) as receiver:
        assert units.push_all(0, []) == []
        assert receiver.receive_all([]) == []
        for number in (-1, 65536):
            with pytest.raises(ValueError):
                units.push_all(0, [RtpPacket(1, 0, False, b"a"), RtpPacket(number, 0, False, b"a")])
            with pytest.raises(ValueError):
                receiver.receive_all([(number, b"a")])
        with pytest.raises(ValueError):
            units.push_all(2**32, [])
        with pytest.raises(TypeError):
            units.push_all(0, [RtpPacket(1, 0, False, "a")])  # type: ignore[arg-type]
    with pytest.raises(ValueError):
        units.push_all(0, [])
    with pytest.raises(ValueError):
        receiver.receive_all([(1, b"a")])
