"""Bytes in every form, handles that are freed, and want of memory."""

import array
import copy
import gc
import os
import pickle
import resource
import subprocess
import sys
from typing import Any, Callable, List, Type

import pytest
from digits import FRAGMENTS, some
from h26x import (
    AccessUnitReceiver,
    Codec,
    Depacketizer,
    FormatParameters,
    Packetizer,
    Receiver,
    RtpPacket,
    _library,
    detect_keyframe,
    is_partition_head,
    units,
)
from h26x._handle import Owner

FRAME = some("000001 67aa 000001 65010203")


def forms(data: bytes) -> List[Any]:
    """The same bytes in every form in which they may be given."""
    spread = bytearray(2 * len(data))
    spread[::2] = data
    return [
        data,
        bytearray(data),
        memoryview(data),
        memoryview(bytearray(data)),
        memoryview(b"?" + data + b"?")[1:-1],
        memoryview(spread)[::2],
        array.array("B", data),
        type("Sub", (bytes,), {})(data),
    ]


@pytest.mark.parametrize("frame", forms(FRAME), ids=lambda frame: type(frame).__name__)
def test_every_form_of_bytes(frame: Any) -> None:
    assert list(units(Codec.H264, frame)) == [some("67aa"), some("65010203")]
    unit = memoryview(frame)[8:] if not isinstance(frame, bytes) else frame[8:]
    for packets in (
        Packetizer(Codec.H264).packetize(1500, frame),
        Packetizer(Codec.H264).packetize_unit(1500, unit),
    ):
        assert packets == [some("65010203")]
    memory = bytearray(5)
    assert Packetizer(Codec.H264).packetize_into(1500, frame, memory, 1) == [5]
    assert Packetizer(Codec.H264).packets_size(1500, frame) == (1, 4)
    assert memory == b"\0" + some("65010203")
    written = b"\0\0\0\1" + some("65010203")
    assert Depacketizer(Codec.H264).depacketize(unit).data == written
    assert Receiver(Codec.H264, 9).receive(1, unit).data == written
    assert detect_keyframe(Codec.H264, unit) and is_partition_head(Codec.H264, unit)


@pytest.mark.parametrize("wrong", ["65", None, 5, [0x65], 6.5])
def test_what_gives_no_bytes(wrong: Any) -> None:
    calls: List[Callable[[], Any]] = [
        lambda: Packetizer(Codec.H264).packetize(1500, wrong),
        lambda: Packetizer(Codec.H264).packetize_into(1500, b"\x65", wrong),
        lambda: Depacketizer(Codec.H264).depacketize(wrong),
        lambda: Receiver(Codec.H264, 9).receive(1, wrong),
        lambda: units(Codec.H264, wrong),
        lambda: detect_keyframe(Codec.H264, wrong),
    ]
    for call in calls:
        with pytest.raises(TypeError):
            call()


def test_nothing_to_read(codec: Codec) -> None:
    packetizer = Packetizer(codec)
    for nothing in (b"", bytearray(), memoryview(b"")):
        assert packetizer.packetize(1500, nothing) == []
        assert packetizer.packetize_unit(1500, nothing) == []
        assert packetizer.packetize_into(1500, nothing, bytearray()) == []
        assert packetizer.packets_size(1500, nothing, 12) == (0, 0)
        assert list(units(codec, nothing)) == []
        assert not detect_keyframe(codec, nothing) and not is_partition_head(codec, nothing)


def made(kind: Type[Owner]) -> Any:
    """An object of the kind."""
    return kind(Codec.H264, 99) if kind is Receiver else kind(Codec.H264)  # type: ignore[call-arg]


KINDS = [
    (Packetizer, "packetizer"),
    (Depacketizer, "depacketizer"),
    (Receiver, "receiver"),
    (AccessUnitReceiver, "access_units"),
    (FormatParameters, "sdp"),
]

#: Those that have no copy.
ALONE = (AccessUnitReceiver, FormatParameters)


@pytest.mark.parametrize("kind, name", KINDS)
def test_each_handle_is_freed_once(
    kind: Type[Owner], name: str, monkeypatch: pytest.MonkeyPatch
) -> None:
    freed = []

    def free(handle: Any) -> None:
        freed.append(handle.at)
        getattr(_library.library, f"h26x_{name}_free")(handle)

    monkeypatch.setattr(kind, "_FREE", staticmethod(free))
    with made(kind) as one:
        assert not one.closed and freed == []
    assert len(freed) == 1 and one.closed
    one.close()
    del one
    gc.collect()
    assert len(freed) == 1
    # What isn't closed is freed with the object, and a copy has a handle of its own.
    one = made(kind)
    another = made(kind) if kind in ALONE else copy.copy(one)
    assert len(freed) == 1
    del one
    gc.collect()
    assert len(freed) == 2 and not another.closed
    del another
    gc.collect()
    assert len(freed) == 3


def closed_calls() -> List[Callable[[], Any]]:
    """Calls of objects that are closed."""
    packetizer, depacketizer = Packetizer(Codec.H265), Depacketizer(Codec.H265)
    receiver, access_units = Receiver(Codec.H265, 9), AccessUnitReceiver(Codec.H265)
    format, open_format = FormatParameters(Codec.H265), FormatParameters(Codec.H265)
    for one in (packetizer, depacketizer, receiver, access_units, format):
        one.close()
    return [
        lambda: packetizer.packetize(1500, b"\2\1\3"),
        lambda: packetizer.packetize_unit(1500, b"\2\1\3"),
        lambda: packetizer.packetize_into(1500, b"\2\1\3", bytearray(9)),
        lambda: packetizer.packets_size(1500, b"\2\1\3"),
        lambda: setattr(packetizer, "donl", True),
        lambda: setattr(packetizer, "max_packet_size", 9),
        lambda: setattr(packetizer, "lowest_header", True),
        packetizer.copy,
        lambda: depacketizer.depacketize(b"\2\1\3"),
        lambda: setattr(depacketizer, "donl", True),
        depacketizer.give_up_run,
        depacketizer.shown,
        depacketizer.copy,
        lambda: receiver.receive(1, b"\2\1\3"),
        lambda: setattr(receiver, "donl", True),
        lambda: setattr(receiver, "avc", True),
        lambda: receiver.run_len,
        receiver.restart,
        receiver.shown,
        receiver.copy,
        lambda: receiver.__enter__().receive(1, b"\2\1\3"),
        lambda: receiver.skip(1),
        lambda: access_units.push(0, RtpPacket(1, 0, True, b"\2\1\3")),
        lambda: access_units.skip(0, 1),
        lambda: access_units.next(0),
        lambda: list(access_units.units(0)),
        access_units.deadline,
        access_units.missing,
        lambda: access_units.begin_at(1),
        access_units.finish,
        access_units.restart,
        access_units.counts,
        lambda: str(format),
        lambda: hash(format),
        lambda: format.with_value("tx-mode", "SRST"),
        lambda: format.without_value("tx-mode"),
        lambda: format.value("tx-mode"),
        lambda: format.number("level-id"),
        lambda: format.units("sprop-vps"),
        format.others,
        lambda: format.max_don_diff,
        format.interop_constraints,
        format.capability_points,
        lambda: format.answer(format),
        lambda: format.answer(open_format),
        lambda: open_format.answer(format),
    ]


def test_what_is_closed_makes_no_call() -> None:
    for call in closed_calls():
        with pytest.raises(ValueError, match="closed"):
            call()


@pytest.mark.parametrize("kind, name", KINDS)
def test_a_handle_goes_to_no_other_process(kind: Type[Owner], name: str) -> None:
    with pytest.raises(TypeError):
        pickle.dumps(made(kind))


def test_memory_is_given_back() -> None:
    packet, before = b"\x7c\x85" + bytes(1 << 20), resource.getrusage(resource.RUSAGE_SELF)
    for n in range(400):
        depacketizer = Depacketizer(Codec.H264)
        depacketizer.depacketize(packet)
        if n % 2 > 0:
            depacketizer.close()
    after = resource.getrusage(resource.RUSAGE_SELF)
    # The open units are 400 MiB together. The numbers are kilobytes.
    assert after.ru_maxrss - before.ru_maxrss < 100_000


def test_memory_of_what_waits_is_given_back() -> None:
    packet, before = b"\x61" + bytes(1 << 16), resource.getrusage(resource.RUSAGE_SELF)
    for n in range(400):
        receiver = AccessUnitReceiver(Codec.H264)
        for sequence in range(16):
            receiver.push(0, RtpPacket(sequence, 0, False, packet))
        if n % 2 > 0:
            receiver.close()
    after = resource.getrusage(resource.RUSAGE_SELF)
    # They are 400 MiB together. The numbers are kilobytes.
    assert after.ru_maxrss - before.ru_maxrss < 100_000


def test_memory_of_formats_is_given_back() -> None:
    text, before = "x=" + "y" * (1 << 20), resource.getrusage(resource.RUSAGE_SELF)
    for n in range(400):
        format = FormatParameters.read(Codec.H264, text)
        if n % 2 > 0:
            format.close()
    after = resource.getrusage(resource.RUSAGE_SELF)
    # Their texts are 400 MiB together. The numbers are kilobytes.
    assert after.ru_maxrss - before.ru_maxrss < 100_000


WANT = """
import resource, h26x
depacketizer = h26x.Depacketizer(h26x.Codec.H264)
size = int(open("/proc/self/statm").read().split()[0]) * resource.getpagesize()
resource.setrlimit(resource.RLIMIT_AS, (size + (64 << 20), size + (64 << 20)))
depacketizer.depacketize(b"\\x7c\\x85" + bytes(60000))
middle, refused = b"\\x7c\\x05" + bytes(60000), 0
for _ in range(5000):
    try:
        depacketizer.depacketize(middle)
    except h26x.OutOfMemory as why:
        assert str(why) == "out of memory" and not isinstance(why, h26x.PacketError)
        refused += 1
        if refused == 3:
            break
depacketizer.give_up_run()
assert depacketizer.depacketize(b"\\x7c\\x85\\1") == (b"", None)
print(refused, depacketizer.depacketize(b"\\x7c\\x45\\2").data.hex())
"""


#: The same of packets that wait: one that is refused can be given again.
WANT_OF_WAITING = """
import resource, h26x
limits = h26x.AccessUnitConfig(window=1 << 14, far=0, held_limit=1 << 30)
receiver = h26x.AccessUnitReceiver(h26x.Codec.H264, limits)
size = int(open("/proc/self/statm").read().split()[0]) * resource.getpagesize()
resource.setrlimit(resource.RLIMIT_AS, (size + (64 << 20), size + (64 << 20)))
payload, refused, sequence = b"\\x61" + bytes(4 << 20), 0, 0
while sequence < 5000 and refused < 3:
    try:
        pushed, _ = receiver.push(0, h26x.RtpPacket(sequence, 0, False, payload))
        assert pushed is h26x.Pushed.HELD
        sequence += 1
    except h26x.OutOfMemory as why:
        assert str(why) == "out of memory"
        refused += 1
receiver.restart()
receiver.push(0, h26x.RtpPacket(sequence, 0, False, payload))
receiver.finish()
assert receiver.next(0).data == bytes(3) + b"\\1" + payload
print(refused, receiver.counts() == h26x.Counts(taken=1, units=1))
"""


#: The same of format parameters, whose text is long.
WANT_OF_FORMATS = """
import resource, h26x
read, H264 = h26x.FormatParameters.read, h26x.Codec.H264
name, longer = "sprop-parameter-sets", "x=" + "y" * (40 << 20)
ours = read(H264, "packetization-mode=1;x=" + "y" * (80 << 20))
sets = read(H264, name + "=" + "Z0I0" * (20 << 20))
payload = b"\\x67\\x42\\xc0" + bytes([0x1f]) * (40 << 20)
size = int(open("/proc/self/statm").read().split()[0]) * resource.getpagesize()
resource.setrlimit(resource.RLIMIT_AS, (size + (48 << 20), size + (48 << 20)))
offered, refused = read(H264, "packetization-mode=1"), 0
for call in (
    lambda: read(H264, longer),
    lambda: h26x.FormatParameters.of_payload(H264, payload),
    lambda: offered.answer(ours, ours),
    lambda: sets.units(name),
) * 2:
    try:
        call()
    except MemoryError as why:  # Python's own where the room for a unit lacks
        assert str(why) == ("out of memory" if isinstance(why, h26x.OutOfMemory) else "")
        refused += 1
print(refused, offered.answer(read(H264, "packetization-mode=1;x=2")))
"""


@pytest.mark.skipif(sys.platform != "linux", reason="it limits memory as Linux does")
@pytest.mark.parametrize(
    "program, wanted",
    [
        (WANT, "3 00000001650102\n"),
        (WANT_OF_WAITING, "3 True\n"),
        (WANT_OF_FORMATS, "8 packetization-mode=1;x=2\n"),
    ],
)
def test_want_of_memory_is_an_error(program: str, wanted: str) -> None:
    environment = dict(os.environ, PYTHONPATH=os.pathsep.join(sys.path))
    environment["H26X_LIBRARY"] = _library.library._name
    ran = subprocess.run(
        [sys.executable, "-c", program], env=environment, capture_output=True, text=True, timeout=60
    )
    assert (ran.stdout, ran.stderr) == (wanted, "")


def test_a_long_answer_leaves_the_next_ones_right(codec: Codec) -> None:
    """The memory that a call writes to is kept, and no answer is a part of it."""
    fragments, receiver = FRAGMENTS[codec], Receiver(codec, 1 << 20)
    answers = [receiver.receive(n, fragments[n % 3]).data for n in range(30)]
    assert answers[2::3] == [b"\0\0\0\1" + fragments.unit] * 10
    assert not any(answers[0::3]) and not any(answers[1::3])
