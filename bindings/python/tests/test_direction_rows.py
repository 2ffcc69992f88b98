"""Answers by direction and by multicast: `bindings/streams/directions.txt`, which says how it is written."""

from pathlib import Path

import pytest
from h26x import Codec, Direction, FormatParameters

TEXT = Path(__file__).parents[2] / "streams" / "directions.txt"
ROWS = [row for row in TEXT.read_text(encoding="utf-8").splitlines() if row[0] != "#"]
CODECS = {"h264": Codec.H264, "h265": Codec.H265, "h266": Codec.H266}
DIRECTIONS = {"both": Direction.SENDRECV, "sends": Direction.SENDONLY, "receives": Direction.RECVONLY}


@pytest.mark.parametrize("row", ROWS)
def test_answers(row: str) -> None:
    """Each offer has the answer that the text says."""
    codec, how, offer, ours, wanted = row.split(" | ")
    direction, *others = how.split()
    assert set(others) <= {"any-order", "webrtc", "multicast"}
    offered, own = (FormatParameters.read(CODECS[codec], it) for it in (offer, ours))
    answer = offered.answer(
        own,
        any_order="any-order" in others,
        webrtc="webrtc" in others,
        direction=DIRECTIONS[direction],
        multicast="multicast" in others,
    )
    assert ("-" if answer is None else str(answer)) == wanted


def test_rows() -> None:
    """The text has them."""
    assert len(ROWS) > 30
