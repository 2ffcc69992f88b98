"""Real streams there and back, whole and through losses, repeats and swaps."""

import random
from dataclasses import replace
from typing import Dict, List, NamedTuple, Optional, Sequence, Set, Tuple

import pytest
from digits import FRAGMENTS
from h26x import (
    AccessUnit,
    AccessUnitConfig,
    AccessUnitReceiver,
    Codec,
    Counts,
    Depacketizer,
    Outcome,
    Packetizer,
    PacketError,
    Pushed,
    Receiver,
    RtpPacket,
    detect_keyframe,
    is_partition_head,
    is_partition_tail,
    units,
)
from rfc import (
    SLICES,
    TYPES,
    Placed,
    annex_b,
    behind_lengths,
    is_key,
    placed,
    role_of,
    split,
    stream,
    type_of,
)

MTUS = (1200, 150, 70)


def sent(codec: Codec) -> List[bytes]:
    """The units of the stream that are sent."""
    delimiter = TYPES[codec][2]
    return [unit for unit in split(codec, stream(codec)) if type_of(codec, unit) != delimiter]


def access_units(codec: Codec) -> List[bytes]:
    """The stream in parts, each of which is one unit that is a picture's, with what is before it."""
    parts, part = [], b""
    for unit in split(codec, stream(codec)):
        part += b"\0\0\0\1" + unit
        if type_of(codec, unit) in SLICES[codec]:
            parts.append(part)
            part = b""
    assert part == b""
    return parts


def test_units_of_a_stream(codec: Codec) -> None:
    data = stream(codec)
    assert list(units(codec, data)) == split(codec, data)


@pytest.mark.parametrize("mtu", MTUS)
def test_packets_are_as_the_rfcs_have_them(codec: Codec, mtu: int) -> None:
    with Packetizer(codec) as packetizer:
        packets = [p for part in access_units(codec) for p in packetizer.packetize(mtu, part)]
    assert max(map(len, packets)) <= mtu
    assert [one.unit for one in placed(codec, packets)] == sent(codec)


@pytest.mark.parametrize("avc", [False, True])
@pytest.mark.parametrize("mtu", MTUS)
def test_there_and_back(codec: Codec, mtu: int, avc: bool) -> None:
    form = behind_lengths if avc else annex_b
    with Packetizer(codec) as packetizer, Depacketizer(codec, avc=avc) as depacketizer:
        packets = packetizer.packetize(mtu, stream(codec))
        taken = [depacketizer.depacketize(packet) for packet in packets]
    assert b"".join(one.data for one in taken) == form(sent(codec))
    told = [one.is_keyframe for one in taken]
    wanted = {one.last: False for one in placed(codec, packets)}
    for one in placed(codec, packets):
        wanted[one.last] |= is_key(codec, one.unit)
    assert {n: is_it for n, is_it in enumerate(told) if is_it is not None} == wanted


@pytest.mark.parametrize("codec", [Codec.H265, Codec.H266])
@pytest.mark.parametrize("mtu", MTUS)
def test_there_and_back_with_decoding_order_numbers(codec: Codec, mtu: int) -> None:
    packets = Packetizer(codec, donl=True).packetize(mtu, stream(codec))
    assert packets != Packetizer(codec).packetize(mtu, stream(codec))
    receiver = Receiver(codec, 1 << 20, donl=True)
    back = b"".join(receiver.receive(n, packet).data for n, packet in enumerate(packets))
    assert back == annex_b(sent(codec))


@pytest.mark.parametrize("headroom", [0, 12])
@pytest.mark.parametrize("mtu", MTUS)
def test_into_memory(codec: Codec, mtu: int, headroom: int) -> None:
    packets, begin = Packetizer(codec).packetize(mtu, stream(codec)), 0
    packetizer, memory = Packetizer(codec), bytearray(b"\xee" * 200_000)
    for packet, end in zip(packets, packetizer.packetize_into(mtu, stream(codec), memory, headroom)):
        assert memory[begin:end] == b"\xee" * headroom + packet
        begin = end
    count, size = Packetizer(codec).packets_size(mtu, stream(codec), headroom)
    assert (count, size) == (len(packets), begin) and memory[begin:] == b"\xee" * (200_000 - begin)


def test_units_one_by_one(codec: Codec) -> None:
    """As a server sends that has units: none waits, so none is dropped."""
    packetizer, receiver = Packetizer(codec), Receiver(codec, 1 << 20)
    packets = [p for unit in sent(codec) for p in packetizer.packetize_unit(40, unit)]
    back = b"".join(receiver.receive(n & 65535, packet).data for n, packet in enumerate(packets))
    assert back == annex_b(sent(codec))


def test_heads_tails_and_keyframes(codec: Codec) -> None:
    packets = Packetizer(codec).packetize(150, stream(codec))
    fragments = TYPES[codec][1]
    for one in placed(codec, packets):
        assert is_partition_head(codec, packets[one.first])
        # A fragment tells no type but in its header: the first of a keyframe's does.
        if is_key(codec, one.unit):
            assert detect_keyframe(codec, packets[one.first])
        for n in range(one.first, one.last + 1):
            assert is_partition_head(codec, packets[n]) == (n == one.first)
            is_fragment = type_of(codec, packets[n]) == fragments
            ends = codec is not Codec.H264 and is_fragment and n == one.last
            assert is_partition_tail(codec, False, packets[n]) == ends


class Rates(NamedTuple):
    """How many packets of 1000 are lost, come twice, or come behind later ones."""

    lost: int
    twice: int
    behind: int


def network(count: int, rates: Rates, seed: int) -> List[int]:
    """The packets that come, in their order."""
    draw, coming = random.Random(seed), []
    for n in range(count):
        if draw.randrange(1000) < rates.lost:
            continue
        late = draw.randrange(1, 6) if draw.randrange(1000) < rates.behind else 0.0
        coming.append((n + late, n))
        if draw.randrange(1000) < rates.twice:
            coming.append((n + draw.randrange(1, 6) + 0.5, n))
    return [n for _, n in sorted(coming)]


def outcome(
    found: Sequence[Placed], coming: Sequence[int]
) -> Tuple[List[Tuple[Outcome, int, bytes]], List[bytes]]:
    """What must be answered to each packet, and the units that must be written: computed from the order
    in which packets come, and from nothing that a receiver says."""
    ending: Dict[int, List[Placed]] = {}
    for one in found:
        ending.setdefault(one.last, []).append(one)
    taken, up_to, answers, written = set(), -1, [], []
    for n in coming:
        if 0 <= up_to and n < up_to:
            answers.append((Outcome.LATE, up_to - n, b""))
            continue
        missing = 0 if up_to < 0 else n - up_to
        taken.add(n)
        up_to = n + 1
        whole = [
            one.unit
            for one in ending.get(n, [])
            if all(m in taken for m in range(one.first, one.last + 1))
        ]
        written += whole
        answers.append((Outcome.GAP if missing else Outcome.IN_ORDER, missing, annex_b(whole)))
    return answers, written


@pytest.mark.parametrize("rates", [Rates(100, 0, 0), Rates(0, 200, 0), Rates(20, 50, 200)])
@pytest.mark.parametrize("mtu", [150, 70])
def test_through_losses(codec: Codec, mtu: int, rates: Rates) -> None:
    packets = Packetizer(codec).packetize(mtu, stream(codec))
    found = placed(codec, packets)
    lost = 0
    for seed in range(20):
        coming = network(len(packets), rates, seed)
        answers, written = outcome(found, coming)
        lost += len(found) - len(written)
        # The numbers go round at 65536 in the middle of the stream.
        receiver, first = Receiver(codec, 1 << 20), 65536 - len(packets) // 2
        for n, wanted in zip(coming, answers):
            assert receiver.receive(first + n & 65535, packets[n])[:3] == wanted
    assert (lost > 0) == (rates != Rates(0, 200, 0))


class SentUnit(NamedTuple):
    """An access unit: the packets that hold it, and its units in these."""

    first: int
    last: int
    units: List[Placed]


def sent_units(codec: Codec, mtu: int) -> Tuple[List[bytes], List[SentUnit]]:
    """The packets of a stream, and its access units."""
    packets: List[bytes] = []
    found: List[SentUnit] = []
    with Packetizer(codec) as packetizer:
        for part in access_units(codec):
            first = len(packets)
            packets += packetizer.packetize(mtu, part)
            moved = [
                Placed(one.first + first, one.last + first, one.unit)
                for one in placed(codec, packets[first:])
            ]
            found.append(SentUnit(first, len(packets) - 1, moved))
    return packets, found


def timestamp_of(unit: int) -> int:
    """That of an access unit: they go round in the middle of a stream."""
    return 0xFFFF_0000 + unit * 3000 & 0xFFFF_FFFF


class Decoder:
    """What is known of one that is given access units: whether it can go on, which parameter sets came to
    it since something was missing, how many temporal layers these tell, and whether any access unit came."""

    def __init__(self, codec: Codec) -> None:
        self.codec, self.goes_on, self.layers = codec, False, 0
        self.sets: Set[str] = set()
        self.has_begun = False

    def takes(self, units_: Sequence[bytes], follows: bool, is_unbroken: bool) -> Tuple[bool, bool, bool]:
        """Gives it the units that came of an access unit: whether this follows the one before, with nothing
        missing between, and whether nothing is missing in it from its first packet that came on. Answers
        whether it is whole, clean and disposable."""
        codec, roles = self.codec, [role_of(self.codec, unit) for unit in units_]
        is_whole = is_unbroken and (follows or self.is_front(roles))
        self.has_begun = True
        if not follows:
            self.sets, self.layers = set(), 0
        # What is behind the first slice tells nothing of the picture.
        until = roles.index("slice") if "slice" in roles else len(roles)
        came = set(roles[:until])
        if "sps" in came:
            sps = units_[roles.index("sps")]
            # sps_max_sub_layers_minus1
            self.layers = (sps[2] >> 1 & 7) + 1 if codec is Codec.H265 else 1
        is_first, is_keyframe, is_disposable = False, False, False
        if until < len(roles):
            unit = units_[until]
            is_keyframe = is_key(codec, unit)
            if "header" in came:  # ph_non_ref_pic_flag
                is_first = True
                is_disposable = units_[roles.index("header")][2] & 0x40 > 0
            elif codec is Codec.H264:  # first_mb_in_slice, nal_ref_idc
                is_first, is_disposable = unit[1] >= 0x80, unit[0] & 0x60 == 0
            elif codec is Codec.H265:
                # first_slice_segment_in_pic_flag; sub-layer non-reference pictures of the highest layer
                is_first = unit[2] >= 0x80
                is_disposable = type_of(codec, unit) % 2 == 0 and unit[1] & 7 == self.layers
            else:  # a picture header in the slice
                is_first, is_disposable = unit[2] >= 0x80, unit[2] & 0xA0 == 0xA0
        is_disposable &= not is_keyframe
        wanted = {"vps", "sps", "pps"} if codec is Codec.H265 else {"sps", "pps"}
        self.sets |= came
        begins = is_unbroken and is_first and is_keyframe and wanted <= self.sets
        goes_on = self.goes_on and follows and (is_unbroken or is_disposable)
        self.goes_on = begins or goes_on
        if not is_unbroken:
            self.sets = set()
        return is_whole, is_unbroken and self.goes_on, is_disposable

    def is_front(self, roles: Sequence[str]) -> bool:
        """Whether access units begin with the first of these, or the first one."""
        if roles[:1] == ["vps"]:
            return not self.has_begun
        if roles[:1] == ["sps"]:
            return self.codec is not Codec.H265 and not self.has_begun
        return roles[:1] == ["delimiter"]


def left(codec: Codec, found: Sequence[SentUnit], came: Set[int], first: int) -> List[AccessUnit]:
    """The access units that must be given out where these packets came, computed from these alone: of
    each what its units are of which each packet came, and what a decoder can do with these."""
    given: List[AccessUnit] = []
    before: Optional[int] = None
    carried, decoder = 0, Decoder(codec)
    for n, sent_unit in enumerate(found):
        numbers = range(sent_unit.first, sent_unit.last + 1)
        there = [number for number in numbers if number in came]
        if not there:
            continue
        follows = there[0] - 1 == before
        before = there[0] - 1 if before is None else before
        units_ = [
            one.unit
            for one in sent_unit.units
            if all(number in came for number in range(one.first, one.last + 1))
        ]
        # From the first that came on, and that is none of the middle of a unit.
        is_unbroken = there == list(range(there[0], numbers[-1] + 1)) and not any(
            one.first < there[0] <= one.last for one in sent_unit.units
        )
        is_keyframe = any(is_key(codec, unit) for unit in units_)
        is_whole, is_clean, is_disposable = decoder.takes(units_, follows, is_unbroken)
        carried += there[-1] - before - len(there)
        before = there[-1]
        # What is missing of one without bytes is told with the next one.
        if not units_:
            continue
        given.append(
            AccessUnit(
                timestamp=timestamp_of(n),
                data=annex_b(units_),
                is_keyframe=is_keyframe,
                is_whole=is_whole,
                is_clean=is_clean,
                is_disposable=is_disposable,
                continues=False,
                first=first + there[0] & 65535,
                last=first + there[-1] & 65535,
                missing=carried,
            )
        )
        carried = 0
    return given


#: By a window, and by the time that a packet is waited for.
CONFIGS = (
    AccessUnitConfig(window=16, begin_wait=None),
    AccessUnitConfig(max_wait=30, begin_wait=None),
)


@pytest.mark.parametrize("rates", [Rates(0, 0, 0), Rates(100, 0, 0), Rates(0, 200, 0), Rates(20, 50, 200)])
@pytest.mark.parametrize("config", CONFIGS, ids=["window", "time"])
@pytest.mark.parametrize("mtu", MTUS)
def test_access_units_through_losses(
    codec: Codec, mtu: int, config: AccessUnitConfig, rates: Rates
) -> None:
    packets, found = sent_units(codec, mtu)
    of = {n: unit for unit, one in enumerate(found) for n in range(one.first, one.last + 1)}
    whole, clean, disposable = 0, 0, 0
    for seed in range(5):
        coming = network(len(packets), rates, seed)
        # The numbers and the ticks go round in the middle of the stream.
        first, start = 65536 - len(packets) // 2, 2**32 - len(coming) // 2
        receiver, came = AccessUnitReceiver(codec, config), set()
        given: List[AccessUnit] = []
        for time, n in enumerate(coming, start):
            now, unit = time & 0xFFFF_FFFF, of[n]
            marker = n == found[unit].last
            pushed, _ = receiver.push(
                now, RtpPacket(first + n & 65535, timestamp_of(unit), marker, packets[n])
            )
            assert pushed in ((Pushed.TWICE, Pushed.LATE) if n in came else (Pushed.HELD,))
            came.add(n)
            given += receiver.units(now)
        receiver.finish()
        given += receiver.units(now)
        wanted = left(codec, found, came, first)
        assert given == wanted
        counts, wholes = receiver.counts(), sum(unit.is_whole for unit in wanted)
        assert counts.late + counts.twice == len(coming) - len(came)
        assert replace(counts, late=0, twice=0) == Counts(
            taken=len(came),
            lost=max(came) - min(came) + 1 - len(came),
            units=len(wanted),
            whole=wholes,
        )
        whole += wholes
        clean += sum(unit.is_clean for unit in wanted)
        disposable += sum(unit.is_disposable for unit in wanted)
    # The first begins with parameter sets, and is a keyframe.
    assert (whole < 5 * len(found)) == (clean < 5 * len(found)) == (rates.lost > 0)
    # Of the streams here that of H.265 alone has pictures that nothing refers to.
    if rates.lost < 100:
        assert clean > 0 and (disposable > 0) == (codec is Codec.H265)


def test_a_lost_fragment_damages_a_unit_of_a_depacketizer(codec: Codec) -> None:
    """As the caveat says: it sees no numbers."""
    packets = Packetizer(codec).packetize(70, stream(codec))
    long = next(one for one in placed(codec, packets) if one.last - one.first >= 2)
    depacketizer = Depacketizer(codec)
    kept = [n for n in range(long.first, long.last + 1) if n != long.first + 1]
    written = b"".join(depacketizer.depacketize(packets[n]).data for n in kept)
    header = 2 if codec is Codec.H264 else 3
    assert written[:4] == b"\0\0\0\1" and long.unit[:40] == written[4:44]
    assert len(written) == 4 + len(long.unit) - (70 - header)


def test_any_bytes(codec: Codec) -> None:
    """Whatever a stranger sends, packets are taken or refused."""
    draw, depacketizer, receiver = random.Random(1), Depacketizer(codec), Receiver(codec, 1000)
    refused = 0
    for n in range(10000):
        packet = bytes(draw.randrange(256) for _ in range(draw.randrange(20)))
        answers: List[object] = [None, None]
        try:
            depacketizer.depacketize(packet)
        except PacketError as why:
            answers[0] = (type(why), why.first, why.second)
        try:
            receiver.receive(n, packet)
        except PacketError as why:
            answers[1] = (type(why), why.first, why.second)
        assert answers[0] == answers[1] and receiver.run_len <= 1000
        refused += answers[0] is not None
    assert 0 < refused < 10000
    fragments = FRAGMENTS[codec]
    receiver.restart()
    assert [receiver.receive(n, fragments[n]).data for n in range(3)][2] == annex_b([fragments.unit])
