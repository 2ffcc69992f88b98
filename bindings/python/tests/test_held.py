"""How much memory a peer can make receivers hold."""

import os
from collections import Counter
from typing import Iterator

import pytest
from h26x import AccessUnitConfig, AccessUnitReceiver, Codec, Pushed, Receiver, RtpPacket

#: The longest packet that UDP brings, and the limit on an open unit.
PACKET = 65507
RUN_LIMIT = 1000
#: How many bytes a receiver of H.265 may hold for what it shows of packets.
SHOWN_MOST = 3 << 20
#: What it may hold beside that, with the memory that it writes units to; and the test.
BESIDE_SHOWN = 1 << 20
BESIDE_RECEIVERS = 32 << 20
RECEIVERS = 4


def resident() -> int:
    """How many bytes of memory the process has."""
    try:
        with open("/proc/self/statm", encoding="ascii") as told:
            return int(told.read().split()[1]) * os.sysconf("SC_PAGE_SIZE")
    except FileNotFoundError:
        pytest.skip("the system doesn't tell how much memory a process has")


def aggregate(units: int, place: int) -> bytes:
    """An aggregation packet of units of H.265, as long as a packet may be: the unit at one place takes
    all that is left, the others no byte (RFC 7798, 4.4.2)."""
    size = PACKET - 2 - 2 * units
    long = size.to_bytes(2, "big") + b"\x0a" * size
    return b"\x60\x01" + bytes(2 * place) + long + bytes(2 * (units - place - 1))


def hostile() -> Iterator[bytes]:
    """Each place of an aggregate is long once, in both lists that are shown by turns; then come many
    empty units, and fragments without an end."""
    for place in range(1, 257):
        yield aggregate(257, place)
    yield aggregate(3, 1)
    yield aggregate(32700, 0)
    yield b"\x62\x01\x93" + bytes(PACKET - 3)


def test_no_packets_make_a_receiver_hold_more() -> None:
    receivers = [Receiver(Codec.H265, RUN_LIMIT) for _ in range(RECEIVERS)]
    before = resident()
    for receiver in receivers:
        sequence = 0
        for packet in hostile():
            for _ in range(2):
                receiver.receive(sequence, packet)
                sequence += 1
    more = resident() - before
    most = RECEIVERS * (SHOWN_MOST + BESIDE_SHOWN) + BESIDE_RECEIVERS
    assert more <= most, f"{RECEIVERS} receivers hold {more} bytes, and {most} may be"
    for receiver in receivers:
        receiver.restart()
        assert receiver.run_len == 0


#: What may wait in a receiver of access units, and how long an open one may be.
HELD_LIMIT = 1 << 20
UNIT_LIMIT = 100_000
#: What each packet that waits takes beside its payload.
BESIDE_PAYLOAD = 200
#: What a receiver may hold: what waits, with a packet more and a stray; an access unit that is open, one
#: that is kept, and the memory that it is written to, with a packet; each in memory twice as long.
UNITS_MOST = 2 * (HELD_LIMIT + 2 * PACKET) + (BESIDE_PAYLOAD << 14) + 6 * (UNIT_LIMIT + 2 * PACKET)

LONG = b"\x02\x01" + bytes(PACKET - 2)


class Peer:
    """Sends packets that are there to be held."""

    def __init__(self, to: AccessUnitReceiver) -> None:
        self.to, self.sequence = to, 0
        self.seen: "Counter[Pushed]" = Counter()

    def sends(self, timestamp: int, payload: bytes) -> None:
        """Sends a packet, and counts what becomes of it."""
        packet = RtpPacket(self.sequence & 65535, timestamp, False, payload)
        self.seen[self.to.push(0, packet)[0]] += 1

    def leaves_gaps(self) -> None:
        """Long packets behind each of which one is missing, and then some without a payload, for which no
        limit on bytes stands."""
        for n in range(1500):
            self.sends(n, LONG)
            self.sequence += 2
        assert self.seen[Pushed.FULL] > 1400
        self.to.restart()
        for _ in range(1 << 14):
            self.sends(0, b"")
            self.sequence += 1
        self.to.restart()

    def jumps(self) -> None:
        """Strays, and streams that begin anew."""
        for n in range(300):
            self.sends(n, LONG)
            self.sequence += 1 + n % 2 * 24999
        assert self.seen[Pushed.STRAY] > 100 and self.seen[Pushed.ANEW] > 100
        self.to.restart()

    def never_ends(self, takes: bool) -> None:
        """An access unit without an end, of long units, of many empty ones, and of a unit without an end."""
        middle = b"\x62\x01\x13" + bytes(PACKET - 3)
        packets = [LONG, aggregate(32700, 0)] * 150 + [b"\x62\x01\x93" + middle[3:]] + [middle] * 300
        for packet in packets:
            self.sends(7, packet)
            self.sequence += 1
            if takes:
                assert self.to.next(0) is None


def test_no_packets_make_a_receiver_of_access_units_hold_more() -> None:
    limits = AccessUnitConfig(
        window=1 << 14,
        far=20000,
        held_limit=HELD_LIMIT,
        run_limit=RUN_LIMIT,
        unit_limit=UNIT_LIMIT,
    )
    receivers = [AccessUnitReceiver(Codec.H265, limits) for _ in range(RECEIVERS)]
    before = resident()
    for receiver in receivers:
        peer = Peer(receiver)
        peer.leaves_gaps()
        peer.jumps()
        peer.never_ends(takes=False)
        peer.never_ends(takes=True)
        more, most = resident() - before, RECEIVERS * UNITS_MOST + BESIDE_RECEIVERS
        assert more <= most, f"{RECEIVERS} receivers hold {more} bytes, and {most} may be"
