"""Access units as text, and the packets of all their units: `bindings/streams/sent_units.txt`, which says how
it is written."""

from pathlib import Path

import pytest
from h26x import Codec, OutOfRange, Packetizer, Packing, UnitForbidden, UnitRefused

TEXT = Path(__file__).parents[2] / "streams" / "sent_units.txt"
ROWS = [row for row in TEXT.read_text(encoding="utf-8").splitlines() if row[0] != "#"]


@pytest.mark.parametrize("row", ROWS)
def test_units(row: str) -> None:
    """Each access unit has the packets, or the refusal, that the text says, by each call."""
    codec, packing, mtu, units, wanted = (column.strip() for column in row.split("|"))
    text = b"".join(b"\0\0\0\1" + bytes.fromhex(unit) for unit in units.split())
    packetizer = Packetizer(Codec[codec[:4].upper()], donl=codec.endswith(" donl"))
    packing, without, _ = packing.partition(" without delimiters")
    packetizer.packing = Packing[packing.upper().replace(" ", "_")]
    packetizer.delimiters = not without
    other, into, limit = packetizer.copy(), bytearray(200), int(mtu)
    if wanted.startswith("!"):
        for call in (
            lambda: packetizer.packetize_units(limit, text),
            lambda: packetizer.packetize_units_into(limit, text, into),
            lambda: packetizer.units_size(limit, text),
        ):
            with pytest.raises(UnitRefused) as refused:
                call()
            of = refused.value
            assert wanted == f"! {of.code} {of.place} {of.length}"
        return
    count, size = packetizer.units_size(limit, text, 3)
    packets = packetizer.packetize_units(limit, text)
    assert [packet.hex() for packet in packets] == wanted.split()
    assert (count, size) == (len(packets), 3 * len(packets) + len(b"".join(packets)))
    ends = other.packetize_units_into(limit, text, into, 3)
    assert into[:size] == b"".join(bytes(3) + packet for packet in packets)
    assert len(ends) == count


def test_rows() -> None:
    """The text has them."""
    assert len(ROWS) == 54


def test_packings() -> None:
    """A number that no packing has changes nothing."""
    packetizer = Packetizer(Codec.H264)
    assert packetizer.packing is Packing.TOGETHER and packetizer.delimiters
    packetizer.packing = Packing.APART
    with pytest.raises(OutOfRange):
        packetizer.packing = 4  # type: ignore[assignment]
    packetizer.delimiters = False
    other = packetizer.copy()
    assert packetizer.packing is other.packing is Packing.APART and not other.delimiters
    with pytest.raises(UnitForbidden, match=r"\(unit 1, 2 bytes\)"):
        packetizer.packetize_units(1200, bytes.fromhex("000001 6588 000001 e588"))
