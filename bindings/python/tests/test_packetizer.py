"""Sending: packets as the RFCs have them, what waits, limits, and the caller's memory."""

from typing import Callable, List

import pytest
from digits import FRAGMENTS, many, some
from h26x import Codec, NoRoom, NotOfThisCodec, OutOfRange, Packetizer, UnknownCodec

SETS = "000001 070001 000001 080203"
SETS_265 = "000001 40010c 000001 420101 000001 4401c1"


def test_single_units_and_fragments_of_h264() -> None:
    packetizer = Packetizer(Codec.H264)
    for mtu, payload, packets in (
        (4, "65010203", "65010203"),
        (5, "000001 90 000001 90", "90|90"),
        (3, "65010203", "7c8501|7c0502|7c4503"),
        (2, "65010203", ""),
        (0, "65", ""),
        (5, "", ""),
        (5, "090000", ""),
    ):
        assert packetizer.packetize(mtu, some(payload)) == many(packets)


def test_sets_go_in_a_stap_a_where_they_fit() -> None:
    packetizer = Packetizer(Codec.H264)
    payload = some(SETS + "000001 050405")
    assert packetizer.packetize(11, payload) == many("78 0003 070001 0003 080203|050405")
    assert packetizer.packetize(10, payload) == many("070001|080203|050405")


def test_sets_wait_and_are_copied() -> None:
    packetizer = Packetizer(Codec.H264)
    assert packetizer.packetize(1500, some(SETS)) == []
    copy = packetizer.copy()
    for one in (copy, packetizer):
        assert one.packetize(1500, some("050405")) == many("78 0003 070001 0003 080203|050405")
        assert one.packetize(1500, some("050405")) == many("050405")


def test_h265() -> None:
    packetizer = Packetizer(Codec.H265)
    assert packetizer.packetize(4, some("2601aabbcc")) == many("620193aa|620113bb|620153cc")
    assert packetizer.packetize(3, some("0201aa")) == []
    units = some(SETS_265 + "000001 2601af")
    aggregate = "6001 0003 40010c 0003 420101 0003 4401c1|2601af"
    assert packetizer.packetize(17, units) == many(aggregate)
    assert packetizer.packetize(16, units) == many("40010c|420101|4401c1|2601af")


def test_h265_sets_with_the_header_of_sets() -> None:
    # Sets of layer 0 and temporal id 1 before a slice of layer 1 and temporal id 3 (RFC 7798, 4.4.2).
    units = some("000001 4001 000001 4201 000001 4401 000001 020baa")
    sent = "600b 0002 4001 0002 4201 0002 4401|020baa"
    wanted = "6001 0002 4001 0002 4201 0002 4401|020baa"
    packetizer = Packetizer(Codec.H265)
    assert not packetizer.lowest_header and packetizer.packetize(1200, units) == many(sent)
    packetizer.lowest_header = True
    for one in (packetizer, packetizer.copy()):
        assert one.lowest_header and one.packetize(1200, units) == many(wanted)
    into = bytearray(50)
    assert packetizer.packetize_into(1200, units, into, 12) == [26, 41]
    assert into[:41] == bytes(12) + many(wanted)[0] + bytes(12) + many(wanted)[1]
    # F of a set is that of the packet. A unit that is sent as it is stays.
    units = some("000001 c001 000001 4201 000001 4401 000001 020baa")
    assert packetizer.packetize(1200, units)[0] == some("e001 0002 c001 0002 4201 0002 4401")
    assert packetizer.packetize_unit(1200, many(sent)[0]) == many(sent)[:1]
    packetizer.donl = True
    units = some("000001 4201 000001 4401 000001 0203aa")
    assert packetizer.packetize(1200, units)[0] == some("6001 0000 0002 4201 00 0002 4401")
    for codec in (Codec.H264, Codec.H266):
        other = Packetizer(codec)
        if codec is Codec.H264:
            with pytest.raises(NotOfThisCodec):
                other.lowest_header = True
        else:
            other.lowest_header = True
            units = some("000001 027abb 000001 0183cc 000001 0039dd")
            packets = many("01e2 0003 027abb 0003 0183cc|0039dd")
            assert other.packetize(1200, units) == packets


def test_h265_with_decoding_order_numbers() -> None:
    packetizer = Packetizer(Codec.H265)
    assert not packetizer.donl
    packetizer.donl = True
    assert packetizer.donl
    aggregate = "6001 0000 0003 40010c 00 0003 420101 00 0003 4401c1"
    units = some(SETS_265 + "000001 2601af")
    assert packetizer.packetize(100, units) == many(aggregate + "|26010003af")
    copy = packetizer.copy()
    assert copy.donl and copy.packetize(6, some("0201aabbcc")) == many("6201810004aa|620141bbcc")
    packetizer.donl = True
    assert packetizer.packetize(100, some("0201aa")) == many("02010000aa")
    packetizer.donl = False
    assert packetizer.packetize(100, some("0201aa")) == many("0201aa")


def test_h266() -> None:
    packetizer = Packetizer(Codec.H266, donl=True)
    payload = some("000001 0079bb 000001 0081cc 000001 0039dd")
    assert packetizer.packetize(1200, payload) == many(
        "00e1 0000 0003 0079bb 0003 0081cc|00390002dd"
    )
    packetizer = Packetizer(Codec.H266)
    assert packetizer.packetize(4, some("0039aabb")) == many("0039aabb")
    assert packetizer.packetize(4, some("0039aabbcc")) == many("00e987aa|00e907bb|00e947cc")
    payload = some("000001 0009aa00 00000001 0011bb")
    assert packetizer.packetize(1200, payload) == many("0009aa00|0011bb")


def test_units_as_they_are() -> None:
    packetizer = Packetizer(Codec.H264)
    assert packetizer.packetize(1500, some(SETS)) == []
    for mtu, unit, packets in (
        (1500, "67aa", "67aa"),
        (1500, "65 000001 66", "65 000001 66"),
        (3, "65010203", "7c8501|7c0502|7c4503"),
        (2, "65010203", ""),
        (1500, "", ""),
    ):
        assert packetizer.packetize_unit(mtu, some(unit)) == many(packets)
    # The sets that wait stay.
    assert packetizer.packetize(1500, some("050405")) == many("78 0003 070001 0003 080203|050405")
    packetizer = Packetizer(Codec.H265, donl=True)
    assert packetizer.packetize_unit(100, some("4201aa")) == many("42010000aa")
    assert packetizer.packetize_unit(100, some("0201bb")) == many("02010001bb")


def test_fragments(codec: Codec) -> None:
    fragments = FRAGMENTS[codec]
    with Packetizer(codec) as packetizer:
        assert packetizer.packetize(len(fragments.start), fragments.unit) == list(fragments[:3])


@pytest.mark.parametrize("codec, header", [(Codec.H265, "2601"), (Codec.H266, "0039")])
def test_the_largest_size_is_1200_at_first(codec: Codec, header: str) -> None:
    packetizer, unit = Packetizer(codec), some(header) + b"\xaa" * 1199
    assert packetizer.max_packet_size == 1200
    assert [len(packet) for packet in packetizer.packetize(5000, unit)] == [1200, 5]
    with pytest.raises(OutOfRange):
        packetizer.max_packet_size = 3
    assert packetizer.max_packet_size == 1200
    packetizer.max_packet_size = 1201
    assert packetizer.copy().max_packet_size == packetizer.max_packet_size == 1201
    assert packetizer.packetize(5000, unit) == [unit]
    packetizer.max_packet_size = 4
    assert len(packetizer.packetize(5000, unit)) == 1199


def test_h264_has_no_largest_size_and_no_numbers() -> None:
    unit = b"\x65" * 5000
    packetizer = Packetizer(Codec.H264)
    assert packetizer.max_packet_size is None and packetizer.packetize(5000, unit) == [unit]
    with pytest.raises(NotOfThisCodec):
        packetizer.max_packet_size = 1200
    for donl in (True, False):
        with pytest.raises(NotOfThisCodec):
            packetizer.donl = donl
    with pytest.raises(NotOfThisCodec):
        Packetizer(Codec.H264, donl=True)
    assert packetizer.max_packet_size is None and not packetizer.donl


@pytest.mark.parametrize("number", [0, 263, 267, 2**32 + 264, -1])
def test_unknown_codecs(number: int) -> None:
    with pytest.raises(UnknownCodec):
        Packetizer(number)


def test_a_number_is_a_codec() -> None:
    assert Packetizer(266).codec is Codec.H266


FRAME = some("6501020304")


def into(packetizer: Packetizer, room: int, headroom: int) -> bytearray:
    """The memory into which packets of four bytes were made, with their ends checked."""
    memory = bytearray(b"\xee" * room)
    ends = packetizer.packetize_into(4, FRAME, memory, headroom)
    assert ends == [headroom + 4, 2 * (headroom + 4)]
    return memory


def test_straight_into_memory() -> None:
    packetizer = Packetizer(Codec.H264)
    assert into(packetizer, 8, 0) == some("7c850102 7c450304")
    assert into(packetizer, 12, 2) == some("eeee 7c850102 eeee 7c450304")
    # What is behind the packets is left.
    assert into(packetizer, 14, 2) == some("eeee 7c850102 eeee 7c450304 eeee")


def test_a_part_of_memory() -> None:
    memory = bytearray(b"\xee" * 14)
    with memoryview(memory) as view:
        ends = Packetizer(Codec.H264).packetize_into(4, FRAME, view[3:11])
    assert ends == [4, 8] and memory == some("eeeeee 7c850102 7c450304 eeeeee")


@pytest.mark.parametrize("room, headroom, size", [(11, 2, 12), (0, 2, 12), (7, 0, 8), (64, 90, 188)])
def test_too_little_room(room: int, headroom: int, size: int) -> None:
    packetizer, memory = Packetizer(Codec.H264), bytearray(b"\xee" * room)
    try:
        packetizer.packetize_into(4, FRAME, memory, headroom)
        pytest.fail("it has room")
    except NoRoom as why:
        assert (why.count, why.size) == (2, size)
        assert memory == b"\xee" * room
        # It is the caller's again, and can be made larger at once.
        memory.extend(bytes(why.size - room))
    assert packetizer.packetize_into(4, FRAME, memory, headroom)[-1] == len(memory)


def test_sets_and_numbers_stay_where_there_is_no_room() -> None:
    packetizer, memory = Packetizer(Codec.H265, donl=True), bytearray(5)
    assert packetizer.packetize(100, some(SETS_265)) == []
    with pytest.raises(NoRoom):
        packetizer.packetize_into(100, some("0201bb"), memory)
    with pytest.raises(NoRoom):
        packetizer.packetize_unit_into(100, some("4201aa"), memory, 1)
    assert packetizer.packetize_unit_into(100, some("4201aa"), memory) == [5]
    assert memory == some("42010000aa")
    aggregate = "6001 0001 0003 40010c 00 0003 420101 00 0003 4401c1"
    assert packetizer.packetize(100, some("0201bb")) == many(aggregate + "|02010004bb")


def test_many_packets_into_memory() -> None:
    unit, memory = b"\x65" + bytes(range(1, 251)) * 40, bytearray(2 * 12 * 10001)
    ends = Packetizer(Codec.H264).packetize_into(3, unit, memory, 12)
    assert ends == [15 * (n + 1) for n in range(10000)]
    # An FU-A of one byte of data: the indicator, S, E and the type, the byte.
    assert [memory[end - 3 : end] for end in (15, 30, ends[-1])] == [
        some("7c8501"),
        some("7c0502"),
        some("7c45fa"),
    ]


def test_how_much_memory_packets_take() -> None:
    packetizer = Packetizer(Codec.H264)
    assert packetizer.packets_size(4, FRAME) == (2, 8)
    assert packetizer.packets_size(4, FRAME, 2) == (2, 12)
    payload = some("000001 0799 000001 0899 000001 05")
    assert packetizer.packets_size(1500, payload, 1) == (2, 12)
    assert packetizer.packets_size(1500, some("000001 0799"), 1) == (0, 0)
    # It left the packetizer: no set waits.
    assert packetizer.packetize(1500, some("05")) == many("05")


@pytest.mark.parametrize("memory", [bytes(64), memoryview(bytes(64)), memoryview(bytearray(64))[::2]])
def test_memory_that_cant_be_written(memory: bytearray) -> None:
    packetizer = Packetizer(Codec.H264)
    before = bytes(memory)
    with pytest.raises(TypeError):
        packetizer.packetize_into(4, FRAME, memory)
    assert bytes(memory) == before


def test_payload_and_memory_may_be_the_same() -> None:
    memory = bytearray(FRAME + bytes(3))
    view = memoryview(memory)
    assert Packetizer(Codec.H264).packetize_into(4, view[:5], view) == [4, 8]
    assert memory == some("7c850102 7c450304")


def numbers(packetizer: Packetizer) -> List[Callable[[int], object]]:
    """Calls that are given a number."""

    def largest(number: int) -> None:
        packetizer.max_packet_size = number

    return [
        largest,
        lambda number: packetizer.packetize(number, FRAME),
        lambda number: packetizer.packetize_unit(number, FRAME),
        lambda number: packetizer.packetize_into(number, FRAME, bytearray(64)),
        lambda number: packetizer.packetize_into(4, FRAME, bytearray(64), number),
        lambda number: packetizer.packets_size(number, FRAME),
        lambda number: packetizer.packets_size(4, FRAME, number),
    ]


@pytest.mark.parametrize("number", [-1, 2**64, 2**64 + 4])
def test_numbers_that_fit_no_place(number: int) -> None:
    for call in numbers(Packetizer(Codec.H265)):
        with pytest.raises(ValueError, match=str(number)):
            call(number)


def test_what_is_no_number() -> None:
    for call in numbers(Packetizer(Codec.H265)):
        with pytest.raises(TypeError):
            call(4.0)  # type: ignore[arg-type]


def test_a_size_that_no_memory_has() -> None:
    packetizer = Packetizer(Codec.H264)
    with pytest.raises(NoRoom) as why:
        packetizer.packetize_into(4, FRAME, bytearray(64), 2**64 - 1)
    assert why.value.count == 2 and why.value.size == 2**64 - 1
