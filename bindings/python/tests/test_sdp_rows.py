"""Lines of SDP as text: `bindings/streams/sdp.txt`, which says how it is written."""

from pathlib import Path
from typing import Callable, Dict, List, Optional, Tuple, Type

import h26x
import pytest
from h26x import (
    AgreedSets,
    AgreedStream,
    Codec,
    Direction,
    FormatParameters,
    RepairFormat,
    RepairMap,
    RtxFormat,
)

TEXT = Path(__file__).parents[2] / "streams" / "sdp.txt"
ROWS = [row for row in TEXT.read_text(encoding="utf-8").splitlines() if row[0] != "#"]
CODECS = {"h264": Codec.H264, "h265": Codec.H265, "h266": Codec.H266}
REFUSALS: Dict[str, Type[Exception]] = {
    "no number": h26x.SdpNotANumber,
    "out of range": h26x.SdpOutOfRange,
    "not hexadecimal": h26x.SdpNotHexadecimal,
    "no mode": h26x.SdpNotTxMode,
    "unknown name": h26x.SdpUnknownName,
    "no value": h26x.SdpNotAValue,
    "twice": h26x.SdpTwice,
    "no apt": h26x.SdpNoApt,
    "payload type": h26x.SdpPayloadType,
    "encoding name": h26x.SdpEncodingName,
    "clock rate": h26x.SdpClockRate,
}


def changed(codec: str, line: str, *given: str) -> None:
    """A parameter is set, or dropped."""
    *arguments, wanted = given
    it = FormatParameters.read(CODECS[codec], line)
    call: Callable[..., FormatParameters] = it.with_value if len(arguments) == 2 else it.without_value
    if wanted.startswith("! "):
        with pytest.raises(REFUSALS[wanted[2:]]):
            call(*arguments)
    else:
        assert str(call(*arguments)) == wanted
    assert str(it) == line


RULES = {
    h26x.SdpRuleProfile: "profile",
    h26x.SdpRuleLevel: "level",
    h26x.SdpRuleHighestLevel: "highest level",
    h26x.SdpRuleBelowLevel: "below level",
    h26x.SdpRuleReordering: "reordering",
    h26x.SdpRuleOutOfOrder: "out of order",
    h26x.SdpRuleAboveLevel: "above level",
    h26x.SdpRuleAspectRatios: "aspect ratios",
    h26x.SdpRuleInBandSets: "sets in band",
    h26x.SdpRuleHashTypes: "hash types",
}


def words_of(rule: Optional[h26x.BrokenRule]) -> str:
    """A rule as a row has it."""
    if rule is None:
        return "-"
    words = RULES[type(rule)]
    if rule.parameter is None:
        return words
    assert str(rule).endswith(f" ({rule.parameter})")
    return f"{words} ({rule.parameter})"


def broken(codec: str, line: str, *wanted: str) -> None:
    """A format of one's own breaks a rule, or none."""
    own = FormatParameters.read(CODECS[codec], line)
    rules = own.broken_rule(), own.broken_rule(any_order=True), own.broken_rule(webrtc=True)
    wanted += wanted[:1] * (3 - len(wanted))
    assert tuple(words_of(rule) for rule in rules) == wanted


def directed(codec: str, offer: str, own: str, *wanted: str) -> None:
    """The answers both ways, one way each, and by multicast."""
    offered, ours = FormatParameters.read(CODECS[codec], offer), FormatParameters.read(CODECS[codec], own)
    answers = [offered.answer(ours, direction=direction) for direction in h26x.Direction]
    answers.append(offered.answer(ours, multicast=True))
    assert tuple("-" if it is None else str(it) for it in answers) == wanted


def mapped(line: str, wanted: str) -> None:
    """A payload type of what goes beside video."""
    if wanted.startswith("! "):
        with pytest.raises(REFUSALS[wanted[2:]]):
            RepairMap.read(line)
        return
    it = RepairMap.read(line)
    name = it.format.name.lower().replace("_", "-")
    assert str(it) == wanted == f"{it.payload_type} {name}/{h26x.CLOCK_RATE}"


def retransmitted(line: str, *wanted: str) -> None:
    """A format of retransmission."""
    if wanted[0].startswith("! "):
        with pytest.raises(REFUSALS[wanted[0][2:]]):
            RtxFormat.read(line)
        return
    it = RtxFormat.read(line)
    time = "-" if it.rtx_time is None else str(it.rtx_time)
    assert (str(it.payload_type), time, str(it)) == wanted


DIRECTIONS = {
    "both": Direction.SENDRECV,
    "sends": Direction.SENDONLY,
    "receives": Direction.RECVONLY,
}


def options_of(words: str) -> Tuple[Direction, Dict[str, bool]]:
    """The direction, and the options that the words of a row say."""
    way, *others = words.split()
    assert set(others) <= {"webrtc", "multicast", "any-order"}
    return DIRECTIONS[way], {word.replace("-", "_"): True for word in others}


def stream_of(it: Optional[AgreedStream]) -> str:
    """A stream as a row has it."""
    if it is None:
        return "-"
    mode = "-" if it.mode is None else it.mode
    return f"{it.level} {mode} {it.sets.name.lower().replace('_', '-')}"


def agreed(codec: str, how: str, own: str, other: str, *wanted: str) -> None:
    """What is agreed, of either end."""
    ours, theirs = (FormatParameters.read(CODECS[codec], line) for line in (own, other))
    way, options = options_of(how)
    assert tuple(map(stream_of, ours.agreed(theirs, direction=way, **options))) == wanted
    # Who sends to an end that receives alone sends alone.
    turned = Direction((3 - way) % 3)
    assert tuple(map(stream_of, theirs.agreed(ours, direction=turned, **options))) == wanted[::-1]


def declared(codec: str, how: str, said: str, own: str, wanted: str) -> None:
    """Whether a declared format is received."""
    stream, ours = (FormatParameters.read(CODECS[codec], line) for line in (said, own))
    assert ours.accepts_declared(stream, **options_of(how)[1]) == {"yes": True, "no": False}[wanted]


#: Why there are no sets of a level.
FAULTS: Dict[Type[Exception], str] = {
    h26x.SdpNotHexadecimal: "not hexadecimal",
    h26x.SdpNoLevelSets: "no sets",
    h26x.SdpNotBase64: "no base64",
    h26x.SdpEmptyUnit: "empty unit",
    h26x.SdpOtherType: "other type",
    h26x.SdpStartCode: "start code",
}


def sets_of_level(codec: str, line: str, level: str, wanted: str) -> None:
    """The sets of a level, which are what sprop-parameter-sets says them to be."""
    it, name = FormatParameters.read(CODECS[codec], line), "sprop-parameter-sets"
    if wanted == "! codec":
        with pytest.raises(h26x.NotOfThisCodec):
            it.sets_of_level(int(level))
    elif wanted.startswith("! "):
        with pytest.raises(h26x.LevelSetsError) as told:
            it.sets_of_level(int(level))
        assert f"! {FAULTS[type(told.value.__cause__)]} {told.value.place}" == wanted
    else:
        texts = "" if wanted == "-" else f"{name}={wanted}"
        assert it.sets_of_level(int(level)) == FormatParameters.read(Codec.H264, texts).units(name)


def test_nothing_is_agreed() -> None:
    """Of two codecs, nor by what is closed."""
    own = FormatParameters.read(Codec.H264, "profile-level-id=42e01f")
    other = FormatParameters.read(Codec.H265, "level-id=93")
    with pytest.raises(h26x.SdpNoAnswer):
        own.agreed(other)
    assert not own.accepts_declared(other)
    assert own.agreed(own).sends == AgreedStream(62, 0, AgreedSets.IN_BAND)
    for level in (-1, 1 << 64):
        with pytest.raises(ValueError):
            own.sets_of_level(level)
    other.close()
    calls: List[Callable[[], object]] = [
        lambda: other.agreed(own),
        lambda: own.agreed(other),
        lambda: other.accepts_declared(own),
        lambda: own.accepts_declared(other),
        lambda: other.sets_of_level(93),
    ]
    for call in calls:
        with pytest.raises(ValueError, match="closed"):
            call()


KINDS: Dict[str, Callable[..., None]] = {
    "set": changed,
    "drop": changed,
    "rule": broken,
    "ways": directed,
    "agree": agreed,
    "declared": declared,
    "level": sets_of_level,
    "map": mapped,
    "rtx": retransmitted,
}


@pytest.mark.parametrize("payload_type", [-1, 128])
def test_no_payload_type(payload_type: int) -> None:
    """What isn't one isn't made."""
    with pytest.raises(ValueError):
        RepairMap(payload_type, RepairFormat.RTX)
    with pytest.raises(ValueError):
        RtxFormat(payload_type)
    with pytest.raises(ValueError):
        RtxFormat(96, payload_type << 57 if payload_type > 0 else payload_type)


@pytest.mark.parametrize("row", ROWS)
def test_rows(row: str) -> None:
    """Each row gives what it says."""
    kind, *columns = (column.strip() for column in row.split("|"))
    KINDS[kind](*columns)


def test_all_kinds() -> None:
    """The text has them."""
    assert {row.split("|")[0].strip() for row in ROWS} == set(KINDS) and len(ROWS) > 80
