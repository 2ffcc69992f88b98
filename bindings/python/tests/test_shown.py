"""What a depacketizer or a receiver of H.265 shows (RFC 7798, 4.4), and PACI packets (4.4.4)."""

from typing import List, Optional, Tuple

import pytest
from digits import some
from h26x import (
    Codec,
    Depacketizer,
    H265PaciPhesTooLong,
    Kind,
    NotOfThisCodec,
    Receiver,
    ShortPacket,
    ShownPacket,
    paci_packet,
)

PACKETS = [
    (False, "2601af", Kind.SINGLE, 0x2601, 0, [("af", None)]),
    (False, "620193aabb", Kind.FRAGMENT, 0x6201, 0x93, [("aabb", None)]),
    (
        False,
        "6001 0003 0201aa 0004 2601afaf",
        Kind.AGGREGATE,
        0,
        0,
        [("0201aa", None), ("2601afaf", None)],
    ),
    (
        False,
        "6401 0238 112233 aabb",
        Kind.PACI,
        0x6401,
        0x0238,
        [("112233", None), ("aabb", None)],
    ),
    (True, "0201 ffff aa", Kind.SINGLE, 0x0201, 0, [("aa", 0xFFFF)]),
    (True, "620193 0102 aa", Kind.FRAGMENT, 0x6201, 0x93, [("aa", 0x0102)]),
    (True, "620153 0304", Kind.FRAGMENT, 0x6201, 0x53, [("0304", None)]),
    (
        True,
        "6001 0005 0003 0201aa ff 0003 0201bb",
        Kind.AGGREGATE,
        0,
        0,
        [("0201aa", 5), ("0201bb", 255)],
    ),
]


@pytest.mark.parametrize("donl, packet, kind, header, word, parts", PACKETS)
def test_what_is_shown(
    donl: bool,
    packet: str,
    kind: Kind,
    header: int,
    word: int,
    parts: List[Tuple[str, Optional[int]]],
) -> None:
    depacketizer, receiver = Depacketizer(Codec.H265, donl=donl), Receiver(Codec.H265, 9, donl=donl)
    depacketizer.depacketize(some(packet))
    receiver.receive(7, some(packet))
    told = tuple((some(data), number) for data, number in parts)
    for shown in (depacketizer.shown(), receiver.shown()):
        assert shown == ShownPacket(kind, header, word, told)  # type: ignore[arg-type]
        assert shown.kind is kind


def test_what_isnt_taken_isnt_shown() -> None:
    receiver = Receiver(Codec.H265, 9)
    assert receiver.shown() == (Kind.SINGLE, 0, 0, ((b"", None),))
    receiver.receive(7, some("2601af"))
    receiver.receive(7, some("2601bb"))
    with pytest.raises(ShortPacket):
        receiver.receive(8, b"\x26")
    assert receiver.shown().parts == ((b"\xaf", None),)


@pytest.mark.parametrize("codec", [Codec.H264, Codec.H266])
def test_other_codecs_show_nothing(codec: Codec) -> None:
    with pytest.raises(NotOfThisCodec):
        Depacketizer(codec).shown()
    with pytest.raises(NotOfThisCodec):
        Receiver(codec, 9).shown()


def test_paci_packets() -> None:
    for unit, extension, packet in (
        ("0201aabb", "112233", "6401 0238 112233 aabb"),
        ("0201aabb", "1122", "6401 0220 1122 aabb"),
        ("a609cc", "", "6409 a600 cc"),
        ("2601", "", "6401 2600"),
    ):
        assert paci_packet(some(unit), some(extension)) == some(packet)
    assert len(paci_packet(some("0201aabb"), bytes(31))) == 37
    with pytest.raises(H265PaciPhesTooLong):
        paci_packet(some("0201"), bytes(32))
    with pytest.raises(ShortPacket):
        paci_packet(some("02"), bytes(32))
    with pytest.raises(ShortPacket):
        paci_packet(b"")
