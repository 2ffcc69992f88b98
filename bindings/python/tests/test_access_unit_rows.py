"""Streams as text, and the access units that are given out of them: `bindings/streams/access_units.txt`, which says
how it is written."""

from pathlib import Path
from typing import List

import pytest
from digits import some
from h26x import AccessUnit, AccessUnitConfig, AccessUnitReceiver, Codec, Pushed, RtpPacket

TEXT = Path(__file__).parents[2] / "streams" / "access_units.txt"
ROWS = [
    row for row in TEXT.read_text(encoding="utf-8").replace("\\\n", "").splitlines() if row[0] != "#"
]
COUNTS = ("no_unit", "still", "unbelieved", "refused", "lost", "late", "twice", "stray", "anew")
ANSWERS = {
    "l": Pushed.LATE,
    "t": Pushed.TWICE,
    "s": Pushed.STRAY,
    "a": Pushed.ANEW,
    "j": Pushed.JUMPED,
}


def push(receiver: AccessUnitReceiver, packet: str) -> List[AccessUnit]:
    """Gives a packet, and takes what has ended."""
    if packet == "end":
        receiver.finish()
    else:
        number, timestamp, data = packet.split(":")
        tick = timestamp.rstrip("".join(ANSWERS) + "m")
        pushed = ANSWERS.get(timestamp[-1], Pushed.HELD)
        rtp = RtpPacket(int(number), int(tick), "m" in timestamp, some(data))
        assert receiver.push(0, rtp)[0] == pushed
    return list(receiver.units(0))


def said(unit: AccessUnit) -> str:
    """What is told of it, as the text has it."""
    facts = [
        "k" * (unit.is_keyframe is True),
        "w" * unit.is_whole,
        "c" * unit.is_clean,
        "g" * unit.continues,
        str(unit.missing) * (unit.missing > 0),
    ]
    return f"{unit.first}-{unit.last}:{''.join(facts) or '-'}"


def test_there_are_rows() -> None:
    assert len(ROWS) > 50


@pytest.mark.parametrize("row", ROWS)
def test_access_units(row: str) -> None:
    sent, _, wanted = row.partition(" = ")
    wanted, _, counts = wanted.partition(" | ")
    name, *packets = sent.split()
    donl = packets[0] == "numbers"
    receiver = AccessUnitReceiver(Codec[name.upper()], AccessUnitConfig(window=1), donl=donl)
    given = [unit for packet in packets[donl:] for unit in push(receiver, packet)]
    facts = [unit.rpartition(":") for unit in wanted.split()]
    assert [said(unit) for unit in given] == [fact for fact, _, _ in facts]
    for unit, (_, _, data) in zip(given, facts):
        assert unit.data == some("00000001" + data.replace("+", "00000001"))
        assert f" {unit.first}:{unit.timestamp}" in sent
    told = counts.split()
    named = dict(zip(told[::2], map(int, told[1::2])))
    counted = receiver.counts()
    assert {name: getattr(counted, name) for name in COUNTS} == dict.fromkeys(COUNTS, 0) | named
