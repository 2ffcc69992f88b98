"""The places of units of texts: `bindings/streams/unit_places.txt`, which says how it is written."""

from pathlib import Path

import pytest
from h26x import Codec, UnknownCodec, avc_units, unit_places, units

TEXT = Path(__file__).parents[2] / "streams" / "unit_places.txt"
ROWS = [row for row in TEXT.read_text(encoding="utf-8").splitlines() if row[0] != "#"]


@pytest.mark.parametrize("row", ROWS)
def test_places(row: str) -> None:
    """Each text has the units at the places that the text says."""
    form, digits, wanted = (column.strip() for column in row.split("|"))
    text, avc = bytes.fromhex(digits), form == "lengths"
    codec = Codec.H264 if avc else Codec[form.upper()]
    places = list(unit_places(codec, text, avc=avc))
    assert " ".join(f"{begin}-{end}" for begin, end in places) == wanted
    found = avc_units(text) if avc else units(codec, text)
    assert list(found) == [text[begin:end] for begin, end in places]


def test_all_rows() -> None:
    assert len(ROWS) == 22


def test_places_of_no_codec() -> None:
    with pytest.raises(UnknownCodec):
        unit_places(1, b"\x65")
