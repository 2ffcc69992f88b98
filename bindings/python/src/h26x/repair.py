"""What goes beside video in a session of SDP: payload types, and the format of retransmission (RFC 4588, 8;
RFC 2198, 5; RFC 5109, 13.2; RFC 8627, 5.1.2)."""

from __future__ import annotations

from ctypes import byref, c_size_t, c_uint8, c_uint32
from dataclasses import dataclass
from enum import IntEnum
from typing import Any, Optional

from ._library import Refusal, RtxNumbers, library
from ._memory import Room, number
from .errors import check, error_of

#: The clock rate of each payload type here, in Hz (RFC 6184, 8.2.1; RFC 7798, 7.2.1; RFC 9328, 7.3.1).
CLOCK_RATE = 90000


class RepairFormat(IntEnum):
    """What goes beside video in a session."""

    #: `rtx`: packets that are sent again (RFC 4588, 8.3).
    RTX = 1
    #: `red`: payloads with others before them (RFC 2198, 5), which bear their payload types.
    RED = 2
    #: `ulpfec`: forward error correction (RFC 5109, 13.2).
    ULPFEC = 3
    #: `flexfec`: forward error correction (RFC 8627, 5.1.2).
    FLEXFEC = 4
    #: `flexfec-03`: the same by the third draft of RFC 8627, as browsers send it.
    FLEXFEC_03 = 5


@dataclass(frozen=True)
class RepairMap:
    """A payload type of what goes beside video, with a clock rate of `CLOCK_RATE`: what stands behind
    `a=rtpmap:` (RFC 8866, 6.6). To whom it belongs says of RTX an `RtxFormat`.

    >>> RepairMap.read("97 RTX/90000")
    RepairMap(payload_type=97, format=<RepairFormat.RTX: 1>)
    >>> str(RepairMap(116, RepairFormat.RED))
    '116 red/90000'
    """

    #: The payload type, from 0 to 127.
    payload_type: int
    #: What it is of.
    format: RepairFormat

    def __post_init__(self) -> None:
        """Raises ValueError where one isn't such."""
        object.__setattr__(self, "payload_type", number("payload_type", self.payload_type, 127))
        object.__setattr__(self, "format", RepairFormat(self.format))

    @classmethod
    def read(cls, text: str) -> RepairMap:
        """That of a text, the name without regard to case. Raises an RtpMapError, as of audio's
        "63 red/48000/2", whose clock rate is another."""
        data, payload_type, format = str.encode(text), c_uint8(), c_uint32()
        check(library.h26x_repairmap_read(data, len(data), byref(payload_type), byref(format)))
        return cls(payload_type.value, RepairFormat(format.value))

    def __str__(self) -> str:
        """What stands behind `a=rtpmap:`. Raises OutOfMemory."""
        return _written(library.h26x_repairmap_write, self.payload_type, self.format)


@dataclass(frozen=True)
class RtxFormat:
    """What an `a=fmtp` line says behind the payload type of `RepairFormat.RTX` (RFC 4588, 8.3 and 8.6).

    >>> RtxFormat.read("apt=96;rtx-time=3000")
    RtxFormat(payload_type=96, rtx_time=3000)
    >>> str(RtxFormat(96))
    'apt=96'
    """

    #: `apt`: the payload type that packets were first sent with, to which it belongs, from 0 to 127.
    payload_type: int
    #: `rtx-time`: for how many milliseconds a packet can be sent again; None where it isn't said.
    rtx_time: Optional[int] = None

    def __post_init__(self) -> None:
        """Raises ValueError where one isn't such."""
        object.__setattr__(self, "payload_type", number("payload_type", self.payload_type, 127))
        if self.rtx_time is not None:
            object.__setattr__(self, "rtx_time", number("rtx_time", self.rtx_time, 2**64 - 1))

    @classmethod
    def read(cls, text: str) -> RtxFormat:
        """That of a text. What RFC 4588 doesn't have is left out. Raises a ParametersError, an `apt` above 127
        being SdpOutOfRange; SdpNoApt; or OutOfMemory."""
        data, said, why = str.encode(text), RtxNumbers(), Refusal()
        code = library.h26x_rtx_format_read(data, len(data), byref(said), byref(why))
        if code != 0:
            raise error_of(code, why.first)
        return cls(said.payload_type, said.rtx_time if said.has_rtx_time else None)

    def __str__(self) -> str:
        """What stands behind the payload type. Raises OutOfMemory."""
        said = RtxNumbers(self.rtx_time or 0, self.payload_type, self.rtx_time is not None)
        return _written(library.h26x_rtx_format_write, byref(said))


def _written(call: Any, *arguments: Any) -> str:
    """What a call writes, which is no longer than this."""
    room, size = Room(), c_size_t()
    room.grow(len("apt=127;rtx-time=18446744073709551615"))
    check(call(*arguments, room.address, room.size, byref(size)))
    return room.copy(0, size.value).decode()
