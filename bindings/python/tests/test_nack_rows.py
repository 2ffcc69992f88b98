"""Missing numbers that are asked for, and when: `bindings/streams/nacks.txt`, which says how it is written."""

from pathlib import Path

import pytest
from h26x import AccessUnitConfig, AccessUnitReceiver, Codec, NackTimes, Pushed, RtpPacket

TEXT = Path(__file__).parents[2] / "streams" / "nacks.txt"
ROWS = [row for row in TEXT.read_text(encoding="utf-8").splitlines() if row[0] != "#"]
SLICE = bytes.fromhex("419a80")


def step_of(receiver: AccessUnitReceiver, step: str) -> None:
    """Does a step, and compares what is asked for."""
    if step[0] == "?":
        asked, _, wanted = step[1:].partition("=")
        now, first, again, most, room = map(int, asked.split("/"))
        numbers = receiver.nacks(now, NackTimes(first, again, most), room)
        assert (",".join(map(str, numbers)) or "-") == wanted
    elif step == "restart":
        receiver.restart()
    else:
        number = int(step)
        assert receiver.push(0, RtpPacket(number, 9 * number, True, SLICE))[0] == Pushed.HELD
        list(receiver.units(0))


def test_there_are_rows() -> None:
    assert len(ROWS) == 16


@pytest.mark.parametrize("row", ROWS)
def test_nacks(row: str) -> None:
    with AccessUnitReceiver(Codec.H264, AccessUnitConfig(window=100)) as receiver:
        for step in row.split():
            step_of(receiver, step)


def test_more_than_there_is_room_for() -> None:
    with AccessUnitReceiver(Codec.H264) as receiver:
        for number in (1, 400):
            receiver.push(0, RtpPacket(number, 9 * number, True, SLICE))
            list(receiver.units(0))
        assert receiver.nacks(0, NackTimes(0, 60, 2), 300) == list(range(2, 302))
        assert receiver.nacks(0, NackTimes(0, 60, 2)) == list(range(302, 400))
        assert receiver.nacks(60, NackTimes(0, 60, 2), 65536) == list(range(2, 400))
        for now, room in ((-1, 8), (2**32, 8), (0, -1), (0, 65537)):
            with pytest.raises(ValueError):
                receiver.nacks(now, NackTimes(0, 60, 2), room)
        for wrong in ((-1, 0, 0), (0, 2**32, 0), (0, 0, 256)):
            with pytest.raises(ValueError):
                receiver.nacks(0, NackTimes(*wrong))
    with pytest.raises(ValueError):
        receiver.nacks(0, NackTimes(0, 60, 2))
