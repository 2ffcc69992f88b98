"""How a stream begins, which access units are whole, and which a decoder can show.

Expected answers are by the video standards' order of NAL units, their parameter sets and their slice
headers, and by which numbers came.
"""

from dataclasses import replace
from typing import Any, Dict, List, NamedTuple, Optional

import pytest
from digits import many, some
from h26x import AccessUnit, AccessUnitConfig, AccessUnitReceiver, Codec, Counts, Pushed
from rfc import annex_b, behind_lengths, is_key
from test_access_unit_receiver import LATE, gives, one, pushes

#: No wait, of a decoder that has no parameter sets but those that come.
AT_ONCE = AccessUnitConfig(max_wait=0)


class Kinds(NamedTuple):
    """Units of a stream, each a packet as it stands: the first slices of a keyframe and of another picture,
    another slice of the keyframe, and a picture from which no other takes anything."""

    delimiter: bytes
    key: bytes
    second: bytes
    slice: bytes
    disposable: bytes
    sets: List[bytes]

    @property
    def keyframe(self) -> List[bytes]:
        """One with its parameter sets."""
        return [*self.sets, self.key]


def kinds_of(digits: str) -> Kinds:
    delimiter, key, second, slice_, disposable, *sets = many(digits)
    return Kinds(delimiter, key, second, slice_, disposable, sets)


KINDS: Dict[Codec, Kinds] = {
    Codec.H264: kinds_of("09f0|6588|6540|619a|019a|6742c01f|68ce"),
    Codec.H265: kinds_of("460150|2601ac|26012c|0201d0|0001d0|40010c|420101|4401c1"),
    Codec.H266: kinds_of("00a128|0041c0|004140|0001c0|0001e0|007900|008100"),
}


def comes(
    receiver: AccessUnitReceiver, now: int, first: int, timestamp: int, units: List[bytes]
) -> int:
    """Gives the units of an access unit, each in a packet, the marker on the last. Answers the next number."""
    for n, unit in enumerate(units, 1):
        pushes(receiver, now, (first + n - 1 & 65535, timestamp, n == len(units), unit))
    return first + len(units) & 65535


def several(
    codec: Codec, timestamp: int, first: int, units: List[bytes], **told: Any
) -> AccessUnit:
    """An access unit of these, not known to be whole but where it is told."""
    there = one(codec, timestamp, first, units[0])
    told.setdefault("last", first + len(units) - 1 & 65535)
    is_keyframe = any(is_key(codec, unit) for unit in units)
    return replace(there, data=annex_b(units), is_keyframe=is_keyframe, **told)


#: What is told of one that a decoder can show, the first packet of which follows the one before or not.
CLEAN = {"is_whole": True, "is_clean": True}
START = {"is_clean": True}
WHOLE = {"is_whole": True}


def test_a_stream_of_which_nothing_is_lost(codec: Codec) -> None:
    """With no setting, and no clock, each access unit is given out once it has ended."""
    receiver, kinds, n = AccessUnitReceiver(codec), KINDS[codec], 65530
    for timestamp in (0, 6000, 12000):
        first, n = n, comes(receiver, 0, n, timestamp, kinds.keyframe)
        gives(receiver, 0, several(codec, timestamp, first, kinds.keyframe, **CLEAN))
        first, n = n, comes(receiver, 0, n, timestamp + 3000, [kinds.slice])
        gives(receiver, 0, one(codec, timestamp + 3000, first, kinds.slice, **CLEAN))


@pytest.mark.parametrize("begin_wait, max_wait", [(50, None), (50, 200), (200, 50), (None, 50)])
def test_a_reordered_beginning(
    codec: Codec, begin_wait: Optional[int], max_wait: Optional[int]
) -> None:
    """Packets before the first are waited for by `begin_wait`, and by `max_wait` where that is shorter, and
    none of them is missing."""
    config = AccessUnitConfig(begin_wait=begin_wait, max_wait=max_wait)
    receiver, kinds = AccessUnitReceiver(codec, config), KINDS[codec]
    last = 10 + len(kinds.sets)
    # Behind `restart` and `finish` a stream begins too.
    for begun in range(3):
        pushes(receiver, 0, (last, 3000, True, kinds.key))
        assert receiver.missing() == [] and receiver.deadline() == 50
        gives(receiver, 49)
        pushes(receiver, 49, (10, 3000, False, kinds.sets[0]))
        gives(receiver, 49)
        assert receiver.missing() == list(range(11, last))
        for n, unit in enumerate(kinds.sets[1:], 11):
            pushes(receiver, 49, (n, 3000, False, unit))
        assert receiver.missing() == []
        # Behind `finish` it isn't the first access unit.
        told = CLEAN if begun < 2 else START
        gives(receiver, 50, several(codec, 3000, 10, kinds.keyframe, **told))
        pushes(receiver, 50, (9, 0, True, kinds.slice), LATE, last - 8)
        # It has begun: what is missing is waited for by `max_wait`.
        pushes(receiver, 50, (last + 2, 9000, True, kinds.slice))
        assert receiver.missing() == [last + 1]
        assert receiver.deadline() == (None if max_wait is None else 50 + max_wait)
        if begun == 0:
            receiver.restart()
            continue
        receiver.finish()
        gives(receiver, 50, one(codec, 9000, last + 2, kinds.slice, missing=1))


@pytest.mark.parametrize("begin_wait, max_wait", [(0, None), (0, 200), (200, 0), (None, 0)])
def test_no_wait_at_the_beginning(
    codec: Codec, begin_wait: Optional[int], max_wait: Optional[int]
) -> None:
    config = AccessUnitConfig(begin_wait=begin_wait, max_wait=max_wait)
    receiver, kinds = AccessUnitReceiver(codec, config), KINDS[codec]
    pushes(receiver, 9, (12, 3000, True, kinds.key))
    assert receiver.deadline() == 9
    gives(receiver, 9, one(codec, 3000, 12, kinds.key))
    pushes(receiver, 9, (10, 3000, False, kinds.sets[0]), LATE, 3)


def test_the_window_at_the_beginning(codec: Codec) -> None:
    """It has the first packet due too."""
    config = AccessUnitConfig(window=4, begin_wait=50)
    receiver, slice_ = AccessUnitReceiver(codec, config), KINDS[codec].slice
    for n in (1, 2, 3):
        pushes(receiver, 0, (n, n, True, slice_))
        gives(receiver, 0)
    pushes(receiver, 0, (4, 4, True, slice_))
    others = [one(codec, n, n, slice_, is_whole=True) for n in (2, 3, 4)]
    gives(receiver, 0, one(codec, 1, 1, slice_), *others)


def test_a_first_number_that_is_told(codec: Codec) -> None:
    """Packets from it on are waited for, and the first access unit is whole where they came."""
    receiver, kinds = AccessUnitReceiver(codec, AccessUnitConfig(max_wait=200)), KINDS[codec]
    assert receiver.begin_at(65535) is True
    assert receiver.missing() == [] and receiver.deadline() is None
    pushes(receiver, 7, (1, 3000, True, kinds.second))
    assert receiver.missing() == [65535, 0] and receiver.deadline() == 207
    gives(receiver, 206)
    pushes(receiver, 7, (65534, 0, True, kinds.slice), LATE, 1)
    units = [kinds.sets[-1], kinds.slice, kinds.second]
    pushes(receiver, 7, (65535, 3000, False, units[0]))
    pushes(receiver, 7, (0, 3000, False, units[1]))
    gives(receiver, 7, several(codec, 3000, 65535, units, is_whole=True))
    # Packets came.
    assert receiver.begin_at(2) is False
    # What is missing at the beginning is lost.
    receiver.restart()
    assert receiver.begin_at(10) is True
    pushes(receiver, 300, (12, 6000, True, kinds.slice))
    gives(receiver, 499)
    gives(receiver, 500, one(codec, 6000, 12, kinds.slice, missing=2))
    assert receiver.counts() == Counts(taken=4, lost=2, late=1, units=2, whole=1)
    # One that waits has come.
    receiver.finish()
    gives(receiver, 500)
    pushes(receiver, 500, (20, 9000, True, kinds.slice))
    assert receiver.begin_at(19) is False
    gives(receiver, 500, one(codec, 9000, 20, kinds.slice))


def test_parameter_sets_that_come_with_and_before_keyframes(codec: Codec) -> None:
    receiver, kinds = AccessUnitReceiver(codec, AT_ONCE), KINDS[codec]
    # None came, and then a part of them.
    comes(receiver, 0, 10, 0, [kinds.key])
    comes(receiver, 0, 11, 3000, [kinds.slice])
    comes(receiver, 0, 12, 6000, [kinds.sets[0], kinds.key])
    gives(
        receiver,
        0,
        one(codec, 0, 10, kinds.key),
        one(codec, 3000, 11, kinds.slice, **WHOLE),
        several(codec, 6000, 12, [kinds.sets[0], kinds.key], **WHOLE),
    )
    # With the others in the next one there are all.
    others = [*kinds.sets[1:], kinds.key]
    comes(receiver, 0, 14, 9000, others)
    gives(receiver, 0, several(codec, 9000, 14, others, **CLEAN))
    # Each is needed; with the first of them the first access unit begins.
    for n in range(len(kinds.sets)):
        receiver.restart()
        units = [*kinds.sets[:n], *kinds.sets[n + 1 :], kinds.key]
        comes(receiver, 0, 10, 0, units)
        gives(receiver, 0, several(codec, 0, 10, units, is_whole=n > 0))
    # A sender that marks them, and sends keyframes without.
    receiver.restart()
    n = comes(receiver, 0, 20, 0, kinds.sets)
    gives(receiver, 0)
    before = [several(codec, 0, 20, kinds.sets, **WHOLE)]
    for number in (n, n + 1):
        comes(receiver, 0, number, number, [kinds.key])
        gives(receiver, 0, *before, one(codec, number, number, kinds.key, **CLEAN))
        before = []
    # A keyframe that came from its second slice on is none to begin with.
    receiver.restart()
    comes(receiver, 0, 10, 0, [*kinds.sets, kinds.second])
    gives(receiver, 0, several(codec, 0, 10, [*kinds.sets, kinds.second], **WHOLE))


def test_parameter_sets_that_may_be_others(codec: Codec) -> None:
    """Behind a gap, and where something is missing in the access unit that would bear them."""
    receiver, kinds = AccessUnitReceiver(codec, AT_ONCE), KINDS[codec]
    n = comes(receiver, 0, 10, 0, kinds.keyframe)
    comes(receiver, 0, n + 1, 3000, [kinds.key])
    comes(receiver, 0, n + 2, 6000, [kinds.key])
    gives(
        receiver,
        0,
        several(codec, 0, 10, kinds.keyframe, **CLEAN),
        one(codec, 3000, n + 1, kinds.key, missing=1),
        one(codec, 6000, n + 2, kinds.key, **WHOLE),
    )
    receiver.restart()
    n = comes(receiver, 0, 10, 0, kinds.keyframe)
    pushes(receiver, 0, (n, 3000, False, kinds.slice))
    pushes(receiver, 0, (n + 2, 3000, True, kinds.slice))
    comes(receiver, 0, n + 3, 6000, [kinds.key])
    gives(
        receiver,
        0,
        several(codec, 0, 10, kinds.keyframe, **CLEAN),
        several(codec, 3000, n, [kinds.slice] * 2, last=n + 2, missing=1),
        one(codec, 6000, n + 3, kinds.key, **WHOLE),
    )


def test_a_decoder_that_has_the_parameter_sets(codec: Codec) -> None:
    receiver, kinds = AccessUnitReceiver(codec, replace(AT_ONCE, has_sets=True)), KINDS[codec]
    for n, unit in ((10, kinds.slice), (11, kinds.key), (13, kinds.slice), (15, kinds.key)):
        comes(receiver, 0, n, n, [unit])
    gives(
        receiver,
        0,
        one(codec, 10, 10, kinds.slice),
        one(codec, 11, 11, kinds.key, **CLEAN),
        one(codec, 13, 13, kinds.slice, missing=1),
        one(codec, 15, 15, kinds.key, missing=1, **START),
    )
    # Another sender may have others, but what the caller says stays.
    receiver.restart()
    comes(receiver, 0, 10, 0, [kinds.key])
    gives(receiver, 0, one(codec, 0, 10, kinds.key, **START))
    # From its second slice on a keyframe is none to begin with.
    receiver.restart()
    comes(receiver, 0, 11, 0, [kinds.second])
    comes(receiver, 0, 12, 3000, [kinds.slice])
    gives(
        receiver,
        0,
        one(codec, 0, 11, kinds.second),
        one(codec, 3000, 12, kinds.slice, **WHOLE),
    )


def test_a_keyframe_behind_a_gap(codec: Codec) -> None:
    """A decoder can begin there, whatever is missing before it."""
    receiver, kinds = AccessUnitReceiver(codec, AT_ONCE), KINDS[codec]
    n = comes(receiver, 0, 10, 0, kinds.keyframe)
    # The last packet of a picture is missing, with its marker.
    pushes(receiver, 0, (n, 3000, False, kinds.slice))
    next_ = comes(receiver, 0, n + 2, 6000, kinds.keyframe)
    comes(receiver, 0, next_, 9000, [kinds.slice])
    gives(
        receiver,
        0,
        several(codec, 0, 10, kinds.keyframe, **CLEAN),
        one(codec, 3000, n, kinds.slice),
        several(codec, 6000, n + 2, kinds.keyframe, missing=1, **START),
        one(codec, 9000, next_, kinds.slice, **CLEAN),
    )
    # Behind a marker, where nobody knows whether the one that is missing was of its timestamp.
    receiver.restart()
    other = [kinds.sets[-1], *kinds.keyframe]
    comes(receiver, 0, 10, 0, [kinds.slice])
    comes(receiver, 0, 12, 0, other)
    told = several(codec, 0, 12, other, missing=1, **START)
    gives(receiver, 0, one(codec, 0, 10, kinds.slice), told)
    # Something is missing in it.
    receiver.restart()
    pushes(receiver, 0, (10, 0, False, kinds.sets[0]))
    for n, unit in enumerate([*kinds.sets[1:], kinds.key], 11):
        pushes(receiver, 0, (n, 0, False, unit))
    pushes(receiver, 0, (n + 2, 0, True, kinds.second))
    comes(receiver, 0, n + 3, 3000, [kinds.slice])
    hurt = [*kinds.keyframe, kinds.second]
    gives(
        receiver,
        0,
        several(codec, 0, 10, hurt, missing=1, last=n + 2),
        one(codec, 3000, n + 3, kinds.slice, **WHOLE),
    )


@pytest.mark.parametrize("is_disposable", [False, True])
def test_disposable_pictures(codec: Codec, is_disposable: bool) -> None:
    """They are damaged, and those after them are clean: not so where others refer to one, nor where it isn't
    known to which picture the missing packets belong."""
    receiver, kinds = AccessUnitReceiver(codec, AT_ONCE), KINDS[codec]
    unit = kinds.disposable if is_disposable else kinds.slice
    n = comes(receiver, 0, 10, 0, kinds.keyframe)
    comes(receiver, 0, n, 3000, [unit])
    first = several(codec, 0, 10, kinds.keyframe, **CLEAN)
    gives(receiver, 0, first, one(codec, 3000, n, unit, is_disposable=is_disposable, **CLEAN))
    # A packet in the middle is missing.
    pushes(receiver, 0, (n + 1, 6000, False, unit))
    pushes(receiver, 0, (n + 3, 6000, True, unit))
    comes(receiver, 0, n + 4, 9000, [kinds.slice])
    told = {"last": n + 3, "missing": 1, "is_disposable": is_disposable}
    hurt = several(codec, 6000, n + 1, [unit] * 2, **told)
    after = one(codec, 9000, n + 4, kinds.slice, is_whole=True, is_clean=is_disposable)
    gives(receiver, 0, hurt, after)
    # The first one is missing. Behind it nobody knows how many temporal layers an H.265 stream has.
    comes(receiver, 0, n + 6, 12000, [unit])
    comes(receiver, 0, n + 7, 15000, [kinds.slice])
    told = {"missing": 1, "is_disposable": is_disposable and codec is not Codec.H265}
    after = one(codec, 15000, n + 7, kinds.slice, **WHOLE)
    gives(receiver, 0, one(codec, 12000, n + 6, unit, **told), after)
    # The last one is.
    last, n = n + 8, comes(receiver, 0, n + 8, 18000, kinds.keyframe)
    gives(receiver, 0, several(codec, 18000, last, kinds.keyframe, **CLEAN))
    pushes(receiver, 0, (n, 21000, False, unit))
    comes(receiver, 0, n + 2, 24000, [kinds.slice])
    hurt = one(codec, 21000, n, unit, is_disposable=is_disposable)
    gives(receiver, 0, hurt, one(codec, 24000, n + 2, kinds.slice, missing=1))


def test_temporal_layers() -> None:
    """Of H.265 a picture that none of its temporal layer refers to may be referred to from a higher one."""
    receiver, kinds = AccessUnitReceiver(Codec.H265, AT_ONCE), KINDS[Codec.H265]
    low, high, refers = some("0001d0"), some("0002d0"), some("0202d0")
    comes(receiver, 0, 10, 0, [low])
    gives(receiver, 0, one(Codec.H265, 0, 10, low))
    of_two_layers = [kinds.sets[0], some("420103"), kinds.sets[2], kinds.key]
    comes(receiver, 0, 11, 3000, of_two_layers)
    for n, unit in enumerate((low, high, refers), 15):
        comes(receiver, 0, n, 6000 + n, [unit])
    gives(
        receiver,
        0,
        several(Codec.H265, 3000, 11, of_two_layers, **CLEAN),
        one(Codec.H265, 6015, 15, low, **CLEAN),
        one(Codec.H265, 6016, 16, high, is_disposable=True, **CLEAN),
        one(Codec.H265, 6017, 17, refers, **CLEAN),
    )
    # Behind a gap another sequence parameter set may tell of more.
    comes(receiver, 0, 19, 9000, [high])
    gives(receiver, 0, one(Codec.H265, 9000, 19, high, missing=1))


def test_picture_headers() -> None:
    """Of H.266 a picture header before the first slice is that of the picture."""
    receiver, kinds = AccessUnitReceiver(Codec.H266, AT_ONCE), KINDS[Codec.H266]
    header, non_reference = some("009980"), some("0099c0")
    key = [*kinds.sets, header, kinds.second]
    n = comes(receiver, 0, 10, 0, key)
    comes(receiver, 0, n, 3000, [header, some("000140")])
    comes(receiver, 0, n + 2, 6000, [non_reference, some("000140")])
    gives(
        receiver,
        0,
        several(Codec.H266, 0, 10, key, **CLEAN),
        several(Codec.H266, 3000, n, [header, some("000140")], **CLEAN),
        several(Codec.H266, 6000, n + 2, [non_reference, some("000140")], is_disposable=True, **CLEAN),
    )


def test_whole_by_the_first_unit(codec: Codec) -> None:
    """Where the first packet follows none: a delimiter, or of the first access unit alone a VPS, or of H.264
    and H.266 an SPS."""
    kinds, config = KINDS[codec], AccessUnitConfig(max_wait=0, far=1000)
    (sps, pps), slice_ = kinds.sets[-2:], kinds.slice
    # What is told of the first, and of later ones.
    cases: List[Any] = [
        ([kinds.delimiter, slice_], WHOLE, WHOLE),
        ([kinds.delimiter, *kinds.keyframe], CLEAN, CLEAN),
        (kinds.keyframe, CLEAN, START),
        ([slice_, kinds.second], {}, {}),
        ([pps, slice_], {}, {}),
        ([sps, slice_], {} if codec is Codec.H265 else WHOLE, {}),
    ]
    if codec is not Codec.H264:
        # With a temporal layer of 0, which no header has, they are none.
        h265, h266 = "40010c|40000c|460050", "007100|007000|00a028"
        vps, *others = many(h265 if codec is Codec.H265 else h266)
        cases += [([vps, slice_], WHOLE, {})] + [([other, slice_], {}, {}) for other in others]
    for units, of_first, of_later in cases:
        receiver = AccessUnitReceiver(codec, config)
        n = comes(receiver, 0, 10, 0, units) + 1
        gives(receiver, 0, several(codec, 0, 10, units, **of_first))
        # Behind a gap, behind the end, and where the stream begins anew.
        comes(receiver, 0, n, 3000, units)
        gives(receiver, 0, several(codec, 3000, n, units, missing=1, **of_later))
        receiver.finish()
        gives(receiver, 0)
        comes(receiver, 0, 100, 6000, units)
        gives(receiver, 0, several(codec, 6000, 100, units, **of_later))
        became = [Pushed.STRAY, Pushed.ANEW, *[Pushed.HELD] * len(units)]
        for i, unit in enumerate(units):
            pushes(receiver, 0, (20000 + i, 9000, i + 1 == len(units), unit), became[i])
        gives(receiver, 0, several(codec, 9000, 20000, units, **of_later))
        # Another sender's.
        receiver.restart()
        comes(receiver, 0, 30, 0, units)
        gives(receiver, 0, several(codec, 0, 30, units, **of_first))


def test_a_marker_before_missing_numbers(codec: Codec) -> None:
    """What has the same timestamp behind them isn't known to go on with it."""
    receiver, kinds = AccessUnitReceiver(codec, AT_ONCE), KINDS[codec]
    comes(receiver, 0, 10, 0, kinds.keyframe)
    n = 11 + len(kinds.keyframe)
    comes(receiver, 0, n, 0, [kinds.second])
    keyframe = several(codec, 0, 10, kinds.keyframe, **CLEAN)
    gives(receiver, 0, keyframe, one(codec, 0, n, kinds.second, missing=1))


def test_a_stream_that_begins_anew(codec: Codec) -> None:
    """The packet with which it does waits for those before it, and a decoder needs the sets again."""
    config = AccessUnitConfig(far=100, begin_wait=50)
    receiver, kinds = AccessUnitReceiver(codec, config), KINDS[codec]
    comes(receiver, 0, 10, 0, kinds.keyframe)
    gives(receiver, 50, several(codec, 0, 10, kinds.keyframe, **CLEAN))
    last = 20000 + len(kinds.sets)
    pushes(receiver, 60, (last, 3000, True, kinds.key), Pushed.STRAY)
    pushes(receiver, 60, (last + 1, 6000, True, kinds.key), Pushed.ANEW)
    assert receiver.missing() == [] and receiver.deadline() == 110
    for n, unit in enumerate(kinds.sets, 20000):
        pushes(receiver, 109, (n, 3000, False, unit))
    gives(receiver, 109)
    first = several(codec, 3000, 20000, kinds.keyframe, **START)
    gives(receiver, 110, first, one(codec, 6000, last + 1, kinds.key, **CLEAN))
    pushes(receiver, 120, (40000, 9000, True, kinds.key), Pushed.STRAY)
    pushes(receiver, 120, (40001, 12000, True, kinds.key), Pushed.ANEW)
    gives(receiver, 170, one(codec, 9000, 40000, kinds.key), one(codec, 12000, 40001, kinds.key, **WHOLE))


BOTH_FORMS = [(codec, donl) for codec in Codec for donl in (False, codec is not Codec.H264)]


@pytest.mark.parametrize("codec, donl", BOTH_FORMS)
def test_units_behind_lengths(codec: Codec, donl: bool) -> None:
    """What they bear is found there too."""
    receiver, kinds = AccessUnitReceiver(codec, AT_ONCE, avc=True, donl=donl), KINDS[codec]
    n, key = 10, [kinds.delimiter, *kinds.keyframe, kinds.second]
    cases: List[Any] = [
        ([kinds.second, kinds.second], {}),
        (key, CLEAN),
        ([kinds.disposable], {"is_disposable": True, **CLEAN}),
    ]
    for units, told in cases:
        packets = [unit[:2] + b"\0\5" + unit[2:] if donl else unit for unit in units]
        first, n = n, comes(receiver, 0, n, n, packets)
        given = several(codec, first, first, units, **told)
        gives(receiver, 0, replace(given, data=behind_lengths(units)))
