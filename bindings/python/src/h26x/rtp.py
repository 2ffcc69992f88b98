"""What stands round payloads: RTP's header, retransmissions (RTX) and redundant payloads (RED)."""

from __future__ import annotations

from ctypes import byref, c_size_t, c_uint8
from typing import Iterator, List, NamedTuple, Optional, Tuple, Union

from ._library import BlockPlace, ElementPlace, RtpFields, RtpPlaces, library
from ._memory import Buffer, Room, Target, as_bytes, number
from .access_unit_receiver import RtpPacket
from .errors import NoRoom, RtpNoElement, check


def is_rtcp(datagram: Buffer) -> bool:
    """Whether a datagram is RTCP and not RTP, where both share a port (RFC 5761, 4): ask this before
    `RtpDatagram.read`."""
    data = as_bytes(datagram)
    return bool(library.h26x_is_rtcp(data, len(data)))


class RtpElement(NamedTuple):
    """An element of a header extension (RFC 8285, 4.1)."""

    #: Its local identifier, whose meaning an a=extmap line of SDP says (RFC 8285, 5).
    id: int
    data: bytes


def _elements(profile: int, data: bytes) -> Iterator[RtpElement]:
    begin, it = 0, ElementPlace()
    while True:
        code = library.h26x_rtp_element_next(profile, data, len(data), begin, byref(it))
        if code == RtpNoElement.code:
            return
        check(code)
        begin = it.begin + it.len
        yield RtpElement(it.id, data[it.begin : begin])


class RtpHeader(NamedTuple):
    """The header of an RTP packet (RFC 3550, 5.1).

    >>> buffer = bytearray(12) + b"the payload"  # behind headroom, as of Packetizer.packetize_units_into
    >>> RtpHeader(96, 7, 3000, 0x01020304, marker=True).write_before(buffer, 12)
    0
    >>> buffer[:12].hex(" ", 4)
    '80e00007 00000bb8 01020304'
    """

    #: The payload type, below 128.
    payload_type: int
    sequence: int
    timestamp: int
    ssrc: int
    marker: bool = False
    #: The CSRCs, four bytes each, at most 15.
    csrcs: Buffer = b""
    #: Of a header extension the 16 bits before its length; None where X is clear (5.3.1).
    profile: Optional[int] = None
    #: What stands behind the extension's length: whole words of four bytes.
    extension: Buffer = b""

    def elements(self) -> Iterator[RtpElement]:
        """The elements of its extension, in their order (RFC 8285, 4.2 and 4.3): by the profile those with a header of one
        byte, which end before an id of 15, or of 0 with a length, or of two; of another profile there are none. Behind
        those before it, one that passes the end raises RtpElementPastTheEnd.

        >>> list(RtpHeader(96, 7, 0, 1, profile=0xBEDE, extension=bytes.fromhex("10aa0000")).elements())
        [RtpElement(id=1, data=b'\\xaa')]
        """
        if self.profile is None:
            return iter(())
        return _elements(number("profile", self.profile, 0xFFFF), as_bytes(self.extension))

    def _numbers(self) -> RtpFields:
        """It in numbers. Raises ValueError."""
        return RtpFields(
            number("timestamp", self.timestamp, 0xFFFFFFFF),
            number("ssrc", self.ssrc, 0xFFFFFFFF),
            number("sequence", self.sequence, 0xFFFF),
            number("profile", self.profile or 0, 0xFFFF),
            number("payload_type", self.payload_type, 255),
            bool(self.marker),
            self.profile is not None,
        )

    def write_before(
        self, buffer: Union[bytearray, memoryview], place: int, *, padded: bool = False
    ) -> int:
        """Writes it into a buffer so that it ends at a place, where a payload begins; where it begins itself.
        `padded` is P: whether the packet ends in padding.

        Raises RtpPayloadType, RtpCsrcs or RtpExtension, and NoRoom, whose `size` is how many bytes the header has,
        where it has more than stand before the place, or that is outside the buffer, which stays then."""
        fields, size = self._numbers(), c_size_t()
        csrcs, extension, target = as_bytes(self.csrcs), as_bytes(self.extension), Target(buffer)
        try:
            code = library.h26x_rtp_write_before(
                *(byref(fields), csrcs, len(csrcs), extension, len(extension), padded),
                *(number("place", place), target.address, target.size, byref(size)),
            )
        finally:
            target.release()
        if code == NoRoom.code:
            raise NoRoom(0, size.value)
        check(code)
        return place - size.value


class RtpDatagram(NamedTuple):
    """An RTP packet (RFC 3550, 5.1). Encrypted packets (SRTP) are read as any others: only their headers make sense.

    >>> it = RtpDatagram.read(bytes.fromhex("80e00007 00000bb8 01020304 65"))
    >>> it.header.sequence, it.header.marker, it.payload
    (7, True, b'e')
    """

    header: RtpHeader
    #: The payload, empty in a packet of padding alone, whose number is one to `skip`.
    payload: Buffer
    #: What stands behind it, its last byte how many bytes it has; empty where P is clear.
    padding: Buffer = b""

    @classmethod
    def read(cls, datagram: Buffer) -> RtpDatagram:
        """That of a datagram. Raises an RtpError, by the first fault from the left."""
        data, places = as_bytes(datagram), RtpPlaces()
        check(library.h26x_rtp_read(data, len(data), byref(places)))
        return cls._of(data, places)

    @classmethod
    def original(cls, datagram: Buffer, payload_type: int, ssrc: int) -> RtpDatagram:
        """The packet that a retransmission packet bears, of the payload type and the SSRC of its stream (RTX; RFC
        4588, 4). It has no padding. Raises an RtpError, or RtxNoOriginal."""
        data, places = as_bytes(datagram), RtpPlaces()
        of = (number("payload_type", payload_type, 127), number("ssrc", ssrc, 0xFFFFFFFF))
        check(library.h26x_rtp_original(data, len(data), *of, byref(places)))
        return cls._of(data, places)

    @classmethod
    def _of(cls, data: bytes, places: RtpPlaces) -> RtpDatagram:
        """That of a datagram, by the places of its parts."""
        it, csrcs_end = places.header, 12 + places.csrcs_len
        header = RtpHeader(
            it.payload_type,
            it.sequence,
            it.timestamp,
            it.ssrc,
            it.marker,
            data[12:csrcs_end],
            it.profile if it.has_extension else None,
            data[csrcs_end + 4 : csrcs_end + 4 + places.extension_len],
        )
        end = places.payload + places.payload_len
        return cls(header, data[places.payload : end], data[end : end + places.padding_len])

    def packet(self) -> RtpPacket:
        """What an AccessUnitReceiver takes of it."""
        it = self.header
        return RtpPacket(it.sequence, it.timestamp, it.marker, self.payload)

    def write(self) -> bytes:
        """Its bytes. Raises RtpPayloadType, RtpCsrcs, RtpExtension or RtpPadding, by the first that has no place in a
        packet."""
        fields, size, room = self.header._numbers(), c_size_t(), Room()
        given = (self.header.csrcs, self.header.extension, self.payload, self.padding)
        parts = [as_bytes(part) for part in given]
        room.grow(16 + sum(map(len, parts)))
        told = [it for part in parts for it in (part, len(part))]
        to = (room.address, room.size, byref(size))
        check(library.h26x_rtp_write(byref(fields), *told, *to))
        return room.copy(0, size.value)


def write_rtx(datagram: Buffer, payload_type: int, sequence: int, ssrc: int) -> bytes:
    """The retransmission packet of a packet, with a payload type, a sequence number and an SSRC of its own (RTX; RFC
    4588, 4). Padding is left out. Raises an RtpError, or RtpPayloadType.

    >>> write_rtx(bytes.fromhex("80e01234 00000009 00000001 65"), 97, 5, 2).hex()
    '80e100050000000900000002123465'
    """
    data, room, size = as_bytes(datagram), Room(), c_size_t()
    room.grow(len(data) + 2)
    by = (
        number("payload_type", payload_type, 255),
        number("sequence", sequence, 0xFFFF),
        number("ssrc", ssrc, 0xFFFFFFFF),
    )
    check(library.h26x_rtx_write(data, len(data), *by, room.address, room.size, byref(size)))
    return room.copy(0, size.value)


def red_primary(payload: Buffer) -> Tuple[int, bytes]:
    """The payload type of the primary block of a redundant payload, which may be that of FEC, and the block (RED; RFC
    2198, 3; RFC 5109, 14.2). To send one of a primary block alone, put a byte, its payload type, before it. Raises a
    RedError.

    >>> red_primary(bytes.fromhex("87028002 05 aabb cc"))  # behind a block of two bytes
    (5, b'\\xcc')
    """
    data, payload_type, place = as_bytes(payload), c_uint8(), c_size_t()
    check(library.h26x_red_primary(data, len(data), byref(payload_type), byref(place)))
    return payload_type.value, data[place.value :]


class RedBlock(NamedTuple):
    """A block before the primary one of a redundant payload (RFC 2198, 3)."""

    #: That of FEC where it bears no payload of the stream (RFC 5109, 14.2).
    payload_type: int
    #: How much earlier than the packet's its timestamp is, below 16384.
    timestamp_offset: int
    data: bytes


def red_blocks(payload: Buffer) -> List[RedBlock]:
    """The blocks before the primary one of a redundant payload, in their order (RED; RFC 2198, 3). Raises a RedError.

    >>> red_blocks(bytes.fromhex("87028002 05 aabb cc"))
    [RedBlock(payload_type=7, timestamp_offset=160, data=b'\\xaa\\xbb')]
    """
    data, count = as_bytes(payload), c_size_t()
    check(library.h26x_red_blocks(data, len(data), None, 0, byref(count)))
    told = (BlockPlace * count.value)()
    check(library.h26x_red_blocks(data, len(data), told, count.value, byref(count)))
    return [
        RedBlock(it.payload_type, it.timestamp_offset, data[it.begin : it.begin + it.len])
        for it in told
    ]
