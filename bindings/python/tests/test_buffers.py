"""Objects that give their bytes by the buffer protocol: the length is the memory's, whatever their class says."""

import array
import ctypes
import importlib
import mmap
import threading
from typing import Any, Callable, List

import pytest
from digits import some
from h26x import (
    AccessUnitReceiver,
    Codec,
    Depacketizer,
    FormatParameters,
    NoRoom,
    Packetizer,
    Receiver,
    RtpPacket,
    detect_h264_nalu,
    detect_keyframe,
    fits_single_units,
    is_partition_head,
    is_partition_tail,
    is_plain_unit,
    paci_packet,
    set_lowest_header,
    units,
)

UNIT = some("65010203")
FRAME = some("000001") + UNIT
WRITTEN = some("00000001") + UNIT


def liar(kind: type, data: bytes, told: int) -> Any:
    """Bytes of a class that says it has `told` of them, and others."""
    said = {
        "__len__": lambda self: told,
        "__getitem__": lambda self, place: 0xFF,
        "__iter__": lambda self: iter([0xFF] * 99),
        "__bytes__": lambda self: b"\xff" * 99,
        "__sizeof__": lambda self: told,
        "tobytes": lambda self: b"\xff" * 99,
        "nbytes": told,
    }
    made = type("Liar", (kind,), said)
    return made("B", data) if kind is array.array else made(data)


def mapped(data: bytes) -> Any:
    """Bytes in memory that is mapped."""
    made = mmap.mmap(-1, len(data))
    made.write(data)
    return made


def of_numpy(data: bytes) -> List[Any]:
    """Arrays of numpy, where that is installed: in one piece, and spread."""
    try:
        numpy: Any = importlib.import_module("numpy")
    except ImportError:
        return []
    spread = numpy.zeros(2 * len(data), dtype="u1")
    spread[::2] = list(data)
    flat = numpy.frombuffer(data, dtype="u1")
    return [flat, spread[::2], flat.reshape(-1, 1)]


def forms(data: bytes) -> List[Any]:
    """The same bytes in forms of all kinds."""
    spread, turned = bytearray(3 * len(data)), bytearray(data[::-1])
    spread[::3] = data
    kinds, lengths = (bytes, bytearray, array.array), (0, 1, 4096, 1 << 40)
    return [
        *(liar(kind, data, told) for kind in kinds for told in lengths),
        mapped(data),
        array.array("B", data),
        (ctypes.c_uint8 * len(data))(*data),
        memoryview(spread)[::3],
        memoryview(turned)[::-1],
        memoryview(data).cast("B", [len(data), 1]),
        memoryview(data).cast("B", [1, len(data), 1]),
        *([array.array("H", data)] if len(data) % 2 == 0 else []),
        *of_numpy(data),
    ]


@pytest.mark.parametrize("place", range(len(forms(FRAME))))
def test_each_call_reads_what_is_there(place: int) -> None:
    frame, unit = forms(FRAME)[place], forms(UNIT)[place]
    assert list(units(Codec.H264, frame)) == [UNIT]
    packetizer, memory = Packetizer(Codec.H264), bytearray(4)
    assert packetizer.packetize(1500, frame) == packetizer.packetize_unit(1500, unit) == [UNIT]
    assert packetizer.packetize_into(1500, frame, memory) == [4] and memory == UNIT
    assert packetizer.packets_size(1500, frame) == (1, 4)
    assert Depacketizer(Codec.H264).depacketize(unit).data == WRITTEN
    assert Receiver(Codec.H264, 9).receive(1, unit).data == WRITTEN
    waiting = AccessUnitReceiver(Codec.H264)
    waiting.push(0, RtpPacket(1, 0, True, unit))
    waiting.finish()
    assert waiting.next(0).data == WRITTEN  # type: ignore[union-attr]
    assert is_partition_head(Codec.H264, unit) and is_partition_tail(Codec.H264, True, unit)
    assert detect_keyframe(Codec.H264, unit) and detect_h264_nalu(unit, 5)
    assert is_plain_unit(Codec.H264, unit)
    assert fits_single_units(frame, 4) and not fits_single_units(frame, 3)
    assert paci_packet(some("0201aabb"), unit)[:2] == some("6401")


@pytest.mark.parametrize("place", range(len(forms(some("000001 6742c01f 000001 68ce")))))
def test_the_sets_of_a_stream_are_read(place: int) -> None:
    sets = forms(some("000001 6742c01f 000001 68ce"))[place]
    told = str(FormatParameters.of_payload(Codec.H264, sets))
    assert told == "profile-level-id=42c01f;sprop-parameter-sets=Z0LAHw==,aM4=;packetization-mode=1"


@pytest.mark.parametrize(
    "nothing",
    [liar(bytes, b"", 9), liar(bytearray, b"", 9), array.array("H"), memoryview(b"")[::2]],
)
def test_nothing_is_nothing(nothing: Any) -> None:
    assert Packetizer(Codec.H264).packetize(1500, nothing) == []
    assert not is_partition_head(Codec.H264, nothing) and not detect_keyframe(Codec.H264, nothing)
    assert Packetizer(Codec.H264).packetize_into(1500, nothing, bytearray()) == []


def test_what_is_written_to_is_as_long_as_its_memory() -> None:
    packetizer, behind = Packetizer(Codec.H264), bytearray(4096)
    # Memory that is longer than it says, and shorter.
    for told in (0, 4096):
        with pytest.raises(NoRoom):
            packetizer.packetize_into(1500, FRAME, liar(bytearray, bytes(3), told))
    wide = memoryview(behind).cast("B", [2, 2048])
    assert packetizer.packetize_into(1500, FRAME, wide) == [4] and behind[:5] == UNIT + b"\0"
    set_lowest_header(Codec.H264, liar(bytearray, some("18"), 4096))
    for refused in (memoryview(behind)[::2], bytes(9), liar(bytes, bytes(9), 9)):
        with pytest.raises(TypeError):
            packetizer.packetize_into(1500, FRAME, refused)


def test_memory_that_is_resized_meanwhile() -> None:
    """Another thread makes it longer and shorter: each call sees it as it once was."""
    data, ends = bytearray(UNIT), threading.Event()

    def resize() -> None:
        while not ends.is_set():
            try:
                data.extend(bytes(100_000))
                del data[4:]
            except BufferError:  # a call has it
                pass

    other = threading.Thread(target=resize)
    other.start()
    try:
        depacketizer = Depacketizer(Codec.H264)
        for _ in range(2000):
            written = depacketizer.depacketize(data).data
            assert written[:8] == WRITTEN and len(written) in (8, 100_008)
    finally:
        ends.set()
        other.join()
    target = bytearray(4)
    assert Packetizer(Codec.H264).packetize_into(1500, FRAME, target) == [4]
    target.extend(b"1")


class Number(int):
    """One that says it is small, and isn't."""

    __le__ = __lt__ = __ge__ = __gt__ = __eq__ = lambda self, other: True
    __hash__ = int.__hash__


def test_numbers_are_what_they_are() -> None:
    calls: List[Callable[[], Any]] = [
        lambda: Packetizer(Codec.H264).packetize(Number(1 << 64), FRAME),
        lambda: Packetizer(Codec.H264).packetize_into(1500, FRAME, bytearray(9), Number(-1)),
        lambda: Receiver(Codec.H264, 9).receive(Number(1 << 16), UNIT),
    ]
    for call in calls:
        with pytest.raises(ValueError):
            call()
