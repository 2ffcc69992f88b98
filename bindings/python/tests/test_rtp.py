"""What stands round payloads: bytes by the figures of RFC 3550, 5.1, 5.3.1 and 6.4.2, RFC 5761, 4, RFC 4588, 4, RFC
2198, 3, RFC 4585, 6.1 and 6.2.1, and RFC 5104, 4.3.1; and what is counted of a source by RFC 3550, A.1, A.3 and A.8."""

import copy
from typing import Any, Callable, Dict, List, Optional, Type

import pytest
from digits import some
from h26x import (
    AccessUnitConfig,
    AccessUnitReceiver,
    Codec,
    Error,
    FullIntraRequest,
    GenericNack,
    NoRoom,
    Packetizer,
    PictureLoss,
    ReceiverReport,
    RedBlock,
    RedBlocksPastTheEnd,
    RedHeadersPastTheEnd,
    ReportBlock,
    RtpCsrcs,
    RtpCsrcsPastTheEnd,
    RtpDatagram,
    RtpElement,
    RtpElementPastTheEnd,
    RtpExtension,
    RtpExtensionPastTheEnd,
    RtpHeader,
    RtpOtherVersion,
    RtpPadding,
    RtpPaddingOfZero,
    RtpPaddingTooLong,
    RtpPayloadType,
    RtpStatistics,
    RtpTooShort,
    RtxNoOriginal,
    is_rtcp,
    red_blocks,
    red_primary,
    rtcp_packets,
    write_rtx,
)

#: A packet with a CSRC, an extension of one word and a byte of padding.
WHOLE = "b1ff ffff 00000000 ffffffff 0a0b0c0d bede0001 10aa0000 41 01"
HEADER = RtpHeader(
    127, 65535, 0, 0xFFFFFFFF, True, bytes([10, 11, 12, 13]), 0xBEDE, bytes([0x10, 0xAA, 0, 0])
)


@pytest.mark.parametrize(
    "digits, wanted",
    [
        (WHOLE, RtpDatagram(HEADER, b"A", b"\1")),
        (
            "8060 1234 01020304 a1a2a3a4",
            RtpDatagram(RtpHeader(96, 0x1234, 0x01020304, 0xA1A2A3A4), b""),
        ),
        ("a060 0007 00000000 00000001 000003", RtpDatagram(RtpHeader(96, 7, 0, 1), b"", b"\0\0\3")),
        (
            "9060 0007 00000000 00000001 10000000 65",
            RtpDatagram(RtpHeader(96, 7, 0, 1, profile=0x1000), b"e"),
        ),
        ("9060 0007 00000000 00000001 00000000", RtpDatagram(RtpHeader(96, 7, 0, 1, profile=0), b"")),
    ],
)
def test_packets(digits: str, wanted: RtpDatagram) -> None:
    assert RtpDatagram.read(some(digits)) == wanted
    assert RtpDatagram.read(bytearray(some(digits))) == wanted
    assert wanted.write() == some(digits)


@pytest.mark.parametrize(
    "digits, fault",
    [
        ("", RtpTooShort),
        ("8060 0001 00000000 000000", RtpTooShort),
        ("4160 0001 00000000 00000000", RtpOtherVersion),
        ("b160 0001 00000000 00000000 0a0b00", RtpCsrcsPastTheEnd),
        ("b060 0001 00000000 00000000 bede0001 000000", RtpExtensionPastTheEnd),
        ("a060 0001 00000000 00000000 4100", RtpPaddingOfZero),
        ("a060 0001 00000000 00000000 4103", RtpPaddingTooLong),
    ],
)
def test_refused_packets(digits: str, fault: Type[Error]) -> None:
    with pytest.raises(fault):
        RtpDatagram.read(some(digits))
    with pytest.raises(fault):
        RtpDatagram.original(some(digits), 96, 1)
    with pytest.raises(fault):
        write_rtx(some(digits), 97, 5, 2)


@pytest.mark.parametrize(
    "change, fault",
    [
        ({"payload_type": 128, "csrcs": b"123"}, RtpPayloadType),
        ({"csrcs": b"123", "extension": b"123"}, RtpCsrcs),
        ({"csrcs": bytes(64)}, RtpCsrcs),
        ({"extension": b"123"}, RtpExtension),
        ({"extension": bytes(262144)}, RtpExtension),
    ],
)
def test_unwritten_packets(change: Dict[str, Any], fault: Type[Error]) -> None:
    header, buffer = HEADER._replace(**change), bytearray(100)
    with pytest.raises(fault):
        RtpDatagram(header, b"", b"\0\3").write()
    with pytest.raises(fault):
        header.write_before(buffer, 100)
    assert buffer == bytes(100)


def test_padding_that_is_none() -> None:
    for padding in (b"\0\3", b"\0", bytes(256)):
        with pytest.raises(RtpPadding):
            RtpDatagram(HEADER, b"", padding).write()


def test_headers_before_a_place() -> None:
    buffer = bytearray(b"\7" * 30)
    for place in (23, 31):
        with pytest.raises(NoRoom) as refused:
            HEADER.write_before(buffer, place, padded=True)
        assert refused.value.size == 24
    assert buffer == b"\7" * 30
    assert HEADER.write_before(buffer, 26, padded=True) == 2
    assert buffer == b"\7\7" + some(WHOLE)[:24] + b"\7\7\7\7"
    assert HEADER.write_before(memoryview(buffer)[4:], 24) == 0
    assert buffer[4:28] == b"\x91" + some(WHOLE)[1:24]
    with pytest.raises(TypeError):
        HEADER.write_before(memoryview(bytes(30)), 26)


def test_headers_in_the_headroom_of_packets() -> None:
    frame, buffer, begin = some("00000001 67420a 00000001 68cb 00000001 65") + bytes(60), bytearray(400), 0
    with Packetizer(Codec.H264) as packetizer:
        ends = packetizer.packetize_units_into(30, frame, buffer, headroom=12)
    assert len(ends) == 4
    for i, end in enumerate(ends):
        header = RtpHeader(96, (65534 + i) % 65536, 3000, 7, i + 1 == len(ends))
        packet = memoryview(buffer)[begin:end]
        assert header.write_before(packet, 12) == 0
        assert RtpDatagram.read(packet) == RtpDatagram(header, packet[12:].tobytes(), b"")
        begin = end
    assert buffer[: ends[0]] == some("8060 fffe 00000bb8 00000007 78 0003 67420a 0002 68cb")


def test_packets_go_to_a_receiver() -> None:
    datagram = some("80e0 0007 00000bb8 00000001 1800046742c01f000268ce0003658884")
    with AccessUnitReceiver(Codec.H264, AccessUnitConfig(max_wait=200)) as receiver:
        receiver.push(0, RtpDatagram.read(datagram).packet())
        units = list(receiver.units(0))
    assert [(unit.first, unit.timestamp, unit.is_clean) for unit in units] == [(7, 3000, True)]


def test_retransmissions() -> None:
    sent, resent = some("80e0 1234 00000009 00000001 65"), some("80e1 0005 00000009 00000002 1234 65")
    assert write_rtx(sent, 97, 5, 2) == resent
    assert write_rtx(some("a0e0 1234 00000009 00000001 65 01"), 97, 5, 2) == resent
    wanted = RtpDatagram.read(sent)
    assert RtpDatagram.original(resent, 96, 1) == wanted
    assert RtpDatagram.original(some("a0e1 0005 00000009 00000002 1234 65 01"), 96, 1) == wanted
    for nothing in ("8061 0005 00000009 00000002 12", "a061 0005 00000009 00000002 01"):
        with pytest.raises(RtxNoOriginal):
            RtpDatagram.original(some(nothing), 96, 1)
    with pytest.raises(RtpPayloadType):
        write_rtx(sent, 128, 5, 2)


def test_redundant_payloads() -> None:
    assert red_primary(some("60 65")) == (96, b"e")
    assert red_primary(b"\5") == (5, b"")
    assert red_primary(some("87028002 05 aabb cc")) == (5, b"\xcc")
    assert red_primary(some("87028002 ff000001 7f aabb dd ee")) == (127, b"\xee")
    for payload in ("", "870280", "87028002"):
        with pytest.raises(RedHeadersPastTheEnd):
            red_primary(some(payload))
    with pytest.raises(RedBlocksPastTheEnd):
        red_primary(some("87028002 05 aa"))


def test_redundant_blocks() -> None:
    assert red_blocks(some("60 65")) == []
    assert red_blocks(some("87028002 05 aabb cc")) == [RedBlock(7, 160, b"\xaa\xbb")]
    assert red_blocks(some("80000000 fffffc00 00")) == [RedBlock(0, 0, b""), RedBlock(127, 16383, b"")]
    two = [RedBlock(7, 160, b"\xaa\xbb"), RedBlock(127, 0, b"\xdd")]
    assert red_blocks(some("87028002 ff000001 7f aabb dd ee")) == two
    with pytest.raises(RedHeadersPastTheEnd):
        red_blocks(b"")
    with pytest.raises(RedBlocksPastTheEnd):
        red_blocks(some("87028002 05 aa"))


ONE = RtpElement(1, b"\xaa")


@pytest.mark.parametrize(
    "profile, digits, wanted",
    [
        (0xBEDE, "10aa 21bbcc 0000 30dd", [ONE, RtpElement(2, b"\xbb\xcc"), RtpElement(3, b"\xdd")]),
        (0x1000, "0100 0201bb 00", [RtpElement(1, b""), RtpElement(2, b"\xbb")]),
        (0x100F, "0f01aa ff00", [RtpElement(15, b"\xaa"), RtpElement(255, b"")]),
        (0xBEDE, "", []),
        (0xBEDE, "10aa f000 20bb", [ONE]),
        (0xBEDE, "10aa 01aabb 10cc", [ONE]),
        (0x1010, "10aa", []),
        (None, "10aa", []),
    ],
)
def test_elements(profile: Optional[int], digits: str, wanted: List[RtpElement]) -> None:
    header = RtpHeader(96, 7, 0, 1, profile=profile, extension=some(digits))
    assert list(header.elements()) == wanted


@pytest.mark.parametrize("profile, digits", [(0xBEDE, "10aa 11aa"), (0x1000, "0101aa 1102aa"), (0x1000, "0101aa11")])
def test_elements_past_the_end(profile: int, digits: str) -> None:
    elements = RtpHeader(96, 7, 0, 1, profile=profile, extension=some(digits)).elements()
    assert next(elements) == ONE
    with pytest.raises(RtpElementPastTheEnd):
        next(elements)


def test_rtcp_by_its_second_byte() -> None:
    assert [n for n in range(256) if is_rtcp(bytes([0x80, n]))] == list(range(192, 224))
    assert not is_rtcp(b"\xc8") and not is_rtcp(b"")


PLI, FIR = "81ce0002 01020304 a1a2a3a4", "84ce0004 00000001 00000000 a1a2a3a4 07000000"
RR = "81c90007 00000001 00000002 40fffffe 00020003 00000044 a1a2a3a4 00010000"
BLOCK = ReportBlock(2, 0x40, -2, 0x00020003, 0x44, 0xA1A2A3A4, 0x10000)


def test_feedback() -> None:
    loss, request, report = (
        PictureLoss(0x01020304, 0xA1A2A3A4),
        FullIntraRequest(1, 0xA1A2A3A4, 7),
        ReceiverReport(1, BLOCK),
    )
    assert [one.write() for one in (loss, request, report)] == [some(PLI), some(FIR), some(RR)]
    assert PictureLoss.read(some(PLI)) == loss
    assert FullIntraRequest.read(some(FIR)) == request
    assert ReceiverReport.read(some(RR)) == report
    others = ("", "81ce0002 01020304 a1a2a3", PLI + "00", "a1ce0002 01020304 a1a2a304", FIR + RR, RR + PLI)
    for other in map(some, others):
        assert PictureLoss.read(other) is None and FullIntraRequest.read(other) is None
        assert ReceiverReport.read(other) is None


@pytest.mark.parametrize(
    "numbers, digits",
    [
        ([0x1234], "81cd0003 00000001 a1a2a3a4 12340000"),
        ([5, 6, 21], "81cd0003 00000001 a1a2a3a4 00058001"),
        ([65535, 0], "81cd0003 00000001 a1a2a3a4 ffff0001"),
        ([5, 22], "81cd0004 00000001 a1a2a3a4 00050000 00160000"),
    ],
)
def test_nacks(numbers: List[int], digits: str) -> None:
    nack = GenericNack(1, 0xA1A2A3A4, numbers)
    assert nack.write(1200) == (some(digits), len(numbers))
    assert GenericNack.read(some(digits)) == GenericNack.read(bytearray(some(digits))) == nack


def test_room_of_nacks() -> None:
    """What has no room goes into a packet behind it."""
    nack = GenericNack(1, 2, (5, 6, 22))
    for most in (0, 15):
        with pytest.raises(NoRoom) as refused:
            nack.write(most)
        assert (refused.value.count, refused.value.size) == (0, 16)
    packet, count = nack.write(19)
    assert (packet, count) == (some("81cd0003 00000001 00000002 00050001"), 2)
    rest = nack._replace(numbers=nack.numbers[count:])
    assert rest.write(16) == (some("81cd0003 00000001 00000002 00160000"), 1)
    assert nack._replace(numbers=[]).write(0) == (b"", 0)
    # The length of a packet says 65533 pairs at most.
    packet, count = GenericNack(1, 2, [0] * 65534).write(2**20)
    assert (len(packet), count) == (262144, 65533)
    assert GenericNack.read(packet) == GenericNack(1, 2, [0] * 65533)


@pytest.mark.parametrize(
    "digits",
    [
        "",
        "81cd0002 00000001 00000002",
        "8fcd0003 00000001 00000002 00050000",
        "81ce0003 00000001 00000002 00050000",
        "81cd0003 00000001 00000002 0005000000",
    ],
)
def test_what_is_no_nack(digits: str) -> None:
    assert GenericNack.read(some(digits)) is None


def test_compounds() -> None:
    """They are cut up to the first packet that isn't all there, or is of another version (RFC 3550, 6.1 and A.2)."""
    nack = "81cd0003 00000001 a1a2a3a4 00058001"
    all_of_it = [some(RR), some(nack), some(PLI)]
    assert list(rtcp_packets(bytearray(some(RR + nack + PLI)))) == all_of_it
    assert list(rtcp_packets(some(RR + nack + PLI)[:-1])) == all_of_it[:2]
    assert list(rtcp_packets(some(RR + "41" + nack[2:] + PLI))) == all_of_it[:1]
    for nothing in ("", "81ce00", "41" + PLI[2:]):
        assert not list(rtcp_packets(some(nothing)))


@pytest.mark.parametrize(
    "lost, digits, read",
    [(8388608, "7fffff", 8388607), (-8388609, "800000", -8388608), (-1, "ffffff", -1)],
)
def test_lost_in_24_bits(lost: int, digits: str, read: int) -> None:
    written = ReceiverReport(1, BLOCK._replace(lost=lost)).write()
    assert written[13:16] == some(digits)
    assert ReceiverReport.read(written) == ReceiverReport(1, BLOCK._replace(lost=read))


def test_statistics() -> None:
    it = RtpStatistics()
    assert all(it.receive(100, sequence, 0, 10) for sequence in (65534, 0, 65535, 2))
    assert (it.expected, it.received, it.bytes, it.recovered) == (5, 4, 40, 0)
    other = copy.copy(it)
    assert it.report(9, 7, 8) == other.report(9, 7, 8) == ReportBlock(9, 51, 1, 0x10002, 0, 7, 8)
    # Of three more one comes, 1000 ticks later than the others; and 5000 jumps.
    it.recover()
    assert it.receive(4100, 5, 3000, 10) and not it.receive(100, 5000, 0, 10)
    assert it.report(9) == ReportBlock(9, 170, 3, 0x10005, 62)
    assert (it.recovered, it.received, other.received) == (1, 5, 4)
    assert it.receive(100, 5001, 0, 10) and (it.expected, it.received) == (1, 1)


@pytest.mark.parametrize(
    "call",
    [
        lambda: RtpDatagram(HEADER._replace(sequence=65536), b"").write(),
        lambda: HEADER._replace(timestamp=-1).write_before(bytearray(40), 40),
        lambda: HEADER._replace(profile=65536).write_before(bytearray(40), 40),
        lambda: HEADER.write_before(bytearray(40), -1),
        lambda: RtpDatagram.original(some(WHOLE), 128, 1),
        lambda: write_rtx(some(WHOLE), 96, 65536, 1),
        lambda: PictureLoss(1, 2**32).write(),
        lambda: FullIntraRequest(1, 2, 256).write(),
        lambda: GenericNack(1, 2, [65536]).write(1200),
        lambda: GenericNack(1, 2, [5]).write(-1),
        lambda: ReceiverReport(1, BLOCK._replace(lost=2**31)).write(),
        lambda: ReceiverReport(1, BLOCK._replace(fraction_lost=256)).write(),
        lambda: RtpStatistics().receive(0, 65536, 0, 0),
        lambda: RtpStatistics().report(-1),
    ],
)
def test_numbers_that_do_not_fit(call: Callable[[], object]) -> None:
    with pytest.raises(ValueError):
        call()
