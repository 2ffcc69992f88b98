"""Many packets, as one call of the library takes them."""

from __future__ import annotations

import struct
from ctypes import sizeof
from typing import Iterable, List, NamedTuple, Tuple

from ._library import RtpPayload
from ._memory import Buffer, as_bytes, number

# A place, a timestamp, a sequence number and a marker, laid out as a C compiler does.
_EACH = "NNIH?0N"
_SIZE = struct.calcsize(f"@{_EACH}")
assert _SIZE == sizeof(RtpPayload)


class Laid(NamedTuple):
    """Payloads one behind the other, where each is, and how many bytes those before the n-th have."""

    data: bytes
    places: bytes
    begins: List[int]

    def behind(self, count: int) -> bytes:
        """The places of those behind the first ones."""
        return self.places[count * _SIZE :] if count else self.places


def laid(packets: Iterable[Tuple[int, int, bool, Buffer]]) -> Laid:
    """Packets by their sequence numbers, their timestamps, their markers and their payloads."""
    payloads: List[bytes] = []
    numbers: List[int] = []
    begins: List[int] = []
    end = 0
    for sequence, timestamp, marker, payload in packets:
        data = as_bytes(payload)
        begins.append(end)
        payloads.append(data)
        numbers += (end, end + len(data), timestamp, sequence, bool(marker))
        end += len(data)
    try:
        places = struct.pack(f"@{_EACH * len(payloads)}", *numbers)
    except struct.error:
        for place in range(0, len(numbers), 5):
            number("timestamp", numbers[place + 2], 2**32 - 1)
            number("sequence", numbers[place + 3], 65535)
        raise
    return Laid(b"".join(payloads), places, begins)
