"""One object in several threads: calls release the interpreter's lock, and each has the handle alone."""

import base64
import threading
from collections import Counter
from typing import Callable, List

from h26x import (
    AccessUnitConfig,
    AccessUnitReceiver,
    Codec,
    Depacketizer,
    FormatParameters,
    Packetizer,
    Receiver,
    RtpPacket,
)


def together(*work: Callable[[], None]) -> None:
    """Runs work in a thread each, and raises what one of them raised."""
    failed: List[BaseException] = []

    def run(one: Callable[[], None]) -> None:
        try:
            one()
        except BaseException as why:
            failed.append(why)

    threads = [threading.Thread(target=run, args=(one,)) for one in work]
    for thread in threads:
        thread.start()
    for thread in threads:
        thread.join()
    if failed:
        raise failed[0]


def test_one_packetizer() -> None:
    packetizer = Packetizer(Codec.H264)

    def sends(byte: int, size: int) -> Callable[[], None]:
        unit = b"\x65" + bytes([byte]) * size

        def run() -> None:
            for _ in range(100):
                packets = packetizer.packetize(102, unit)
                assert packets[0] == b"\x7c\x85" + bytes([byte]) * 100
                assert b"".join(packet[2:] for packet in packets) == unit[1:]

        return run

    together(*(sends(byte, 40000 + 3000 * byte) for byte in (1, 2, 3, 4)))


def test_one_depacketizer() -> None:
    depacketizer = Depacketizer(Codec.H264)

    def takes(byte: int, size: int) -> Callable[[], None]:
        unit = b"\x61" + bytes([byte]) * size

        def run() -> None:
            for _ in range(100):
                assert depacketizer.depacketize(unit) == (b"\0\0\0\1" + unit, False)

        return run

    together(*(takes(byte, 40000 + 3000 * byte) for byte in (1, 2, 3, 4)))


def test_each_number_is_taken_once() -> None:
    receiver, answers = Receiver(Codec.H264, 99), []

    def receives() -> None:
        for sequence in range(1000):
            answers.append(receiver.receive(sequence, b"\x61" + sequence.to_bytes(2, "big")).data)

    together(receives, receives, receives)
    taken = [answer for answer in answers if answer]
    # One that was behind is late, so none is written twice.
    assert len(taken) == len(set(taken)) and len(answers) == 3000
    assert taken[-1] == b"\0\0\0\1\x61" + (999).to_bytes(2, "big")


def test_each_access_unit_is_given_out_once() -> None:
    waits = AccessUnitConfig(max_wait=1 << 20, begin_wait=1 << 20)
    receiver = AccessUnitReceiver(Codec.H264, waits)
    given: List[int] = []

    def takes() -> None:
        for unit in receiver.units(0):
            assert unit.first == unit.last
            assert unit.data == b"\0\0\0\1\x61" + bytes([unit.first & 255]) * 1000
            given.append(unit.first)

    def receives() -> None:
        for n in range(1000):
            receiver.push(0, RtpPacket(n, n, True, b"\x61" + bytes([n & 255]) * 1000))
            assert receiver.deadline() in (None, 1 << 20)
            assert len(receiver.missing()) < 1000 and receiver.counts().taken <= 1000
            takes()

    together(receives, receives, receives)
    receiver.finish()
    takes()
    assert Counter(given) == Counter(range(1000))


def test_comparing_while_another_thread_does() -> None:
    one, other = Depacketizer(Codec.H265), Depacketizer(Codec.H265)

    def compares(first: Depacketizer, second: Depacketizer) -> Callable[[], None]:
        def run() -> None:
            for _ in range(2000):
                assert first == second

        return run

    together(compares(one, other), compares(other, one))


def test_one_format() -> None:
    """Its calls write to memory of the object's, each as much as it needs."""
    sets = [b"\x67" + bytes([9]) * 3000, b"\x68" + bytes([7]) * 50]
    text = "sprop-parameter-sets=" + ",".join(base64.b64encode(one).decode() for one in sets)
    text += ";packetization-mode=1;x=" + "y" * 5000
    format = FormatParameters.read(Codec.H264, text)

    def repeats(call: Callable[[], object], wanted: object) -> Callable[[], None]:
        def run() -> None:
            for _ in range(200):
                assert call() == wanted

        return run

    together(
        repeats(lambda: str(format), text),
        repeats(lambda: format.units("sprop-parameter-sets"), sets),
        repeats(format.others, [("x", "y" * 5000)]),
        repeats(lambda: format.value("Packetization-Mode"), "1"),
        repeats(lambda: format.number("sar-understood", True), 13),
    )


def test_answering_while_another_thread_does() -> None:
    one, other = FormatParameters(Codec.H265), FormatParameters(Codec.H265)

    def answers(offered: FormatParameters, ours: FormatParameters) -> Callable[[], None]:
        def run() -> None:
            for _ in range(2000):
                assert str(offered.answer(ours)) == ""

        return run

    together(answers(one, other), answers(other, one), answers(one, one))


def test_closing_a_format_while_another_thread_answers() -> None:
    for _ in range(50):
        offered, ours = FormatParameters(Codec.H265), FormatParameters(Codec.H265)

        def answers() -> None:
            try:
                while offered.answer(ours) is not None:
                    pass
            except ValueError as why:
                assert "closed" in str(why)

        together(answers, answers, ours.close)


def test_closing_while_another_thread_calls() -> None:
    for _ in range(50):
        depacketizer = Depacketizer(Codec.H264)

        def takes() -> None:
            try:
                while depacketizer.depacketize(b"\x61" * 2000).data:
                    pass
            except ValueError as why:
                assert "closed" in str(why)

        together(takes, takes, depacketizer.close)
