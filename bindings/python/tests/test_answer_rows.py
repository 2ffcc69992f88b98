"""Offers and answers as text: `bindings/streams/answers.txt`, which says how it is written."""

from pathlib import Path

import pytest
from h26x import Codec, FormatParameters

TEXT = Path(__file__).parents[2] / "streams" / "answers.txt"
ROWS = [row for row in TEXT.read_text(encoding="utf-8").splitlines() if row[0] != "#"]
CODECS = {"h264": Codec.H264, "h265": Codec.H265, "h266": Codec.H266}


@pytest.mark.parametrize("row", ROWS)
def test_answers(row: str) -> None:
    """Each offer has the answer that the text says."""
    codec, offer, ours, *wanted = (column.strip() for column in row.split("|"))
    offered, own = (FormatParameters.read(CODECS[codec], it) for it in (offer, ours))
    answers = offered.answer(own), offered.answer(own, any_order=True), offered.answer(own, webrtc=True)
    wanted += [wanted[0]] * (3 - len(wanted))
    wanted, peers, why = wanted[:3], wanted[4:5], wanted[5:]
    assert ["-" if it is None else str(it) for it in answers] == wanted
    for it in peers:
        said = it if it == "-" else str(FormatParameters.read(CODECS[codec], it))
        assert (said != wanted[2]) == bool(why)


def test_rows() -> None:
    """The text has them."""
    assert len(ROWS) > 40
