"""Headers by the figure of RFC 3550, 5.1, and retransmissions by that of RFC 4588, 4, written out by hand; and streams
through losses."""

import random
from threading import Thread
from typing import Iterator, List, Optional, Set

import pytest
from digits import some
from h26x import (
    AccessUnit,
    AccessUnitConfig,
    Codec,
    GenericNack,
    NackTimes,
    NoRoom,
    OutOfRange,
    Packetizer,
    RtpDatagram,
    RtpExtension,
    RtpPayloadType,
    RtpPayloadTypes,
    RtpReceiver,
    RtpSender,
    RtpSent,
    RtpStream,
)
from rfc import annex_b, role_of, split, stream

MEDIA, RTX = RtpStream(0x01020304, 96, 65535), RtpStream(0xA1A2A3A4, 97, 500)
SPS, IDR = some("6742c01f"), some("658884")
ELEMENT = some("10aa0000")  # of one byte (RFC 8285, 4.2)


def sender(rtx: Optional[RtpStream] = RTX, history: int = 100) -> RtpSender:
    return RtpSender(MEDIA, rtx, history=history)


def test_headers_of_an_access_unit() -> None:
    with sender() as it:
        assert (it.media(), it.rtx(), it.sent(), it.resent()) == (MEDIA, RTX, (0, 0), (0, 0))
        assert it.send(0x90, [SPS, IDR]) == [
            some("8060 ffff 00000090 01020304 6742c01f"),
            some("80e0 0000 00000090 01020304 658884"),
        ]
        assert it.send(0xFFFFFFFF, [bytearray(IDR)]) == [some("80e0 0001 ffffffff 01020304 658884")]
        assert it.send(1, []) == []
        assert it.media().sequence == 2 and it.sent() == RtpSent(packets=3, bytes=10)


def test_headers_with_an_extension() -> None:
    with sender() as it:
        assert it.send(0x90, [SPS, IDR], profile=0xBEDE, extension=ELEMENT) == [
            some("9060 ffff 00000090 01020304 bede0001 10aa0000 6742c01f"),
            some("90e0 0000 00000090 01020304 bede0001 10aa0000 658884"),
        ]


@pytest.mark.parametrize("extension, size", [(b"", 12), (ELEMENT, 20)])
def test_headers_where_packets_lie(extension: bytes, size: int) -> None:
    """Nothing else is written."""
    memory = bytearray(b"\xee" * 22 + SPS + b"\xee" * 22 + IDR + b"\xee" * 9)
    ends = [26, 51]
    with sender() as it, sender() as other:
        assert it.send_in_place(0x90, memory, ends, 22, profile=0xBEDE, extension=extension) == size
        first, second = other.send(0x90, [SPS, IDR], profile=0xBEDE, extension=extension)
        assert it.media() == other.media()
    free = b"\xee" * (22 - size)
    assert memory == free + first + free + second + b"\xee" * 9


@pytest.mark.parametrize(
    "headroom, extension, size",
    [(11, b"", 12), (0, b"", 12), (19, bytes(4), 20), (300, bytes(260), 276)],
)
def test_no_room_for_headers(headroom: int, extension: bytes, size: int) -> None:
    memory = bytearray(b"\xee" * headroom + IDR)
    with sender() as it:
        with pytest.raises(NoRoom) as told:
            it.send_in_place(1, memory, [headroom + 3], headroom, extension=extension)
        assert (told.value.size, told.value.count, memory) == (size, 0, b"\xee" * headroom + IDR)
        assert (it.media(), it.sent()) == (MEDIA, (0, 0))


def test_what_is_refused() -> None:
    for media, rtx in ((MEDIA._replace(payload_type=128), RTX), (MEDIA, RTX._replace(payload_type=255))):
        with pytest.raises(RtpPayloadType):
            RtpSender(media, rtx, history=0)
    for media in (RtpStream(1, 256, 0), RtpStream(1 << 32, 96, 0), RtpStream(1, 96, -1)):
        with pytest.raises(ValueError):
            RtpSender(media, history=0)
    with pytest.raises(ValueError):
        RtpSender(MEDIA, history=-1)
    with sender() as it:
        with pytest.raises(RtpExtension):
            it.send(1, [IDR], extension=bytes(3))
        with pytest.raises(NoRoom):
            it.send(1, [IDR], extension=bytes(260))
        for ends in ([11], [16], [15, 14], [15, 26]):
            with pytest.raises(OutOfRange):
                it.send_in_place(1, bytearray(12) + IDR, ends, 12)
        for timestamp, profile in ((1 << 32, 0), (-1, 0), (0, 1 << 16)):
            with pytest.raises(ValueError):
                it.send(timestamp, [IDR], profile=profile)
        for sequence in (-1, 65536):
            with pytest.raises(ValueError):
                it.resend(sequence)
        with pytest.raises(TypeError):
            it.send_in_place(1, IDR, [3], 0)  # type: ignore[arg-type]
        with pytest.raises(TypeError):
            it.__copy__()
        assert (it.media(), it.rtx(), it.sent()) == (MEDIA, RTX, (0, 0))
        assert len(it.send(1, [IDR], extension=bytes(256))[0]) == 275
    with pytest.raises(ValueError):
        it.send(1, [IDR])


def test_packets_that_go_again() -> None:
    with sender(history=6) as it:
        it.send(0x90, [SPS, IDR])
        # The first is held no longer, since seven bytes are over the bound.
        assert [it.resend(number) for number in (65535, 1, 65534)] == [None] * 3
        assert (it.rtx(), it.resent()) == (RTX, (0, 0))
        assert it.resend(0) == some("80e1 01f4 00000090 a1a2a3a4 0000 658884")
        assert it.resend(0) == some("80e1 01f5 00000090 a1a2a3a4 0000 658884")
        assert it.rtx() == RTX._replace(sequence=502)
        assert (it.sent(), it.resent()) == (RtpSent(2, 7), RtpSent(2, 10))


def test_packets_that_go_again_as_they_were() -> None:
    with sender(None) as it:
        (packet,) = it.send(0x90, [IDR], profile=0xBEDE, extension=ELEMENT)
        assert it.resend(65535) == packet
        assert (it.rtx(), it.sent(), it.resent()) == (None, (2, 6), (0, 0))


def access_units(codec: Codec) -> Iterator[bytes]:
    """The access units of a stream: in one stands a picture's first slice behind what isn't one."""
    part: List[bytes] = []
    for unit in split(codec, stream(codec)):
        if any(role_of(codec, one) == "slice" for one in part) and begins(codec, unit):
            yield annex_b(part)
            part = []
        part.append(unit)
    yield annex_b(part)


def begins(codec: Codec, unit: bytes) -> bool:
    """Whether a unit behind a slice begins an access unit (RFC 6184, 7798 and 9328 leave it to the standards)."""
    role = role_of(codec, unit)
    if role != "slice":
        return role in ("vps", "sps", "pps", "delimiter", "header")
    # first_mb_in_slice, first_slice_segment_in_pic_flag, sh_picture_header_in_slice_header_flag
    return unit[1 if codec is Codec.H264 else 2] >= 0x80


@pytest.mark.parametrize("rtx", [RTX, None])
def test_losses_nacks_and_retransmissions(codec: Codec, rtx: Optional[RtpStream]) -> None:
    """What is lost is asked for, and sent again, until each access unit came whole."""
    wanted, draw, got = list(access_units(codec)), random.Random(1), []
    types = RtpPayloadTypes(96, rtx=97 if rtx else None)
    with Packetizer(codec) as packetizer, RtpSender(MEDIA, rtx, history=1 << 20) as it, RtpReceiver(
        codec, types, AccessUnitConfig(max_wait=1 << 20)
    ) as receiver:

        def push(now: int, datagram: bytes, lost: float) -> List[AccessUnit]:
            if draw.random() >= lost:
                receiver.push(now, 0, datagram)
            return list(receiver.units(now))

        sent, resent = 0, 0
        for n in range(len(wanted) + 100):
            packets = packetizer.packetize_units(138, wanted[n]) if n < len(wanted) else []
            for i, datagram in enumerate(it.send(3000 * n, packets)):
                # Where a stream begins is known by its first packet, and where it ends by its last.
                lost = 0.0 if (n, i) == (0, 0) or n + 1 == len(wanted) else 0.1
                got += push(10 * n, datagram, lost)
                sent += 1
            for number in receiver.nacks(10 * n, NackTimes(first=0, again=20, most=100)):
                rtcp, _ = GenericNack(9, MEDIA.ssrc, [number]).write(1200)
                asked = GenericNack.read(rtcp)
                assert asked is not None and list(asked.numbers) == [number]
                again = it.resend(number)
                assert again is not None
                got += push(10 * n, again, 0.3)
                resent += 1
        receiver.finish()
        got += receiver.units(10_000)
        assert [unit.data for unit in got] == wanted
        assert [unit.timestamp for unit in got] == [3000 * n for n in range(len(wanted))]
        assert all(unit.missing == 0 for unit in got) and resent > 0
        assert it.sent().packets + it.resent().packets == sent + resent
        assert it.resent().packets == (resent if rtx else 0)


def test_packets_of_a_packetizer_where_they_lie() -> None:
    memory = bytearray(1000)
    with Packetizer(Codec.H265) as packetizer, sender() as it:
        ends = packetizer.packetize_units_into(100, some("00000001 2601") + bytes(300), memory, 12)
        assert it.send_in_place(7, memory, ends, 12) == 12
        for n, (begin, end) in enumerate(zip([0, *ends], ends)):
            header = RtpDatagram.read(memory[begin:end]).header
            assert (header.sequence, header.timestamp) == ((65535 + n) % 65536, 7)
            assert header.marker == (end == ends[-1])


def test_threads() -> None:
    """Each number goes once, whichever thread sends it."""
    numbers: Set[int] = set()
    with sender(history=1 << 20) as it:

        def send() -> None:
            for n in range(100):
                number = RtpDatagram.read(it.send(n, [SPS, IDR])[0]).header.sequence
                assert it.resend(number) is not None
                numbers.add(number)

        threads = [Thread(target=send) for _ in range(4)]
        for thread in threads:
            thread.start()
        for thread in threads:
            thread.join()
        assert len(numbers) == 400 and it.sent().packets == 800 and it.resent().packets == 400
