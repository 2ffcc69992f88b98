"""Access units sent as datagrams: RTP's headers, and the last packets held, so that those go again that a peer misses."""

from __future__ import annotations

from ctypes import byref, c_size_t
from typing import Iterable, List, NamedTuple, NoReturn, Optional, Sequence, Union

from ._handle import Owner
from ._library import Handle, SentTold, StreamsGiven, library
from ._memory import Buffer, Room, Target, as_bytes, number
from .errors import NoRoom, check

#: How many bytes a header has without an extension, and how many more before the bytes of one.
_HEADER, _BEFORE_EXTENSION = 12, 4


class RtpStream(NamedTuple):
    """A stream of RTP packets (RFC 3550, 5.1)."""

    #: The SSRC of its packets.
    ssrc: int
    #: Their payload type, below 128.
    payload_type: int
    #: The number of the next one, which should be random of the first.
    sequence: int


class RtpSent(NamedTuple):
    """What was sent, as sender reports tell it, in the low 32 bits (RFC 3550, 6.4.1). Counts stay at 2**64 - 1."""

    packets: int
    #: Those of payloads; of a retransmission the two of the number, and the payload that is sent again.
    bytes: int


class RtpSender(Owner):
    """Sends the packets of one stream: it writes RTP's header before each (RFC 3550), and holds the last ones, to send
    those again that a peer misses, as retransmissions (RTX; RFC 4588) or as they were. SRTP is the caller's to do
    behind it.

    One object may be used by several threads; one call at a time runs.

    >>> sender = RtpSender(RtpStream(1, 96, 65535), RtpStream(2, 97, 500), history=1_000_000)
    >>> [packet.hex(" ", -4) for packet in sender.send(90_000, [b"\\x67\\x42", b"\\x65\\x88"])]
    ['8060ffff 00015f90 00000001 6742', '80e00000 00015f90 00000001 6588']
    >>> again = sender.resend(65535)  # as a GenericNack asks for it
    >>> again.hex(" ", -4)
    '806101f4 00015f90 00000002 ffff6742'
    """

    _FREE = library.h26x_rtp_sender_free

    def __init__(self, media: RtpStream, rtx: Optional[RtpStream] = None, *, history: int) -> None:
        """A sender of this stream, which sends packets again by RTX if that has a stream, whose payload type has that of
        `media` as its apt; else as they were. It holds the last packets whose payloads have `history` bytes together
        at most, and 32768 packets at most; each takes some 100 bytes more. Raises RtpPayloadType or OutOfMemory."""
        made, given = Handle(), _streams_given(media, rtx)
        check(library.h26x_rtp_sender_new(byref(given), number("history", history), byref(made)))
        self._room = Room()
        self._own(made)

    def send(
        self, timestamp: int, packets: Iterable[Buffer], *, profile: int = 0, extension: Buffer = b""
    ) -> List[bytes]:
        """The RTP packets of all packets of an access unit, as a Packetizer makes them: the numbers follow each other,
        the timestamp is that of the access unit, and the last has the marker (RFC 3550, 5.1). Each has a header
        extension of this profile (5.3.1; RFC 8285), if that has bytes. An `mtu` of 12 less leaves room for the header,
        and for an extension of 4 and its bytes less.

        Raises RtpExtension, of one that isn't of whole words of four bytes; NoRoom where a header has over 272 bytes,
        which `size` tells; and OutOfMemory. All send nothing."""
        given, words = [as_bytes(packet) for packet in packets], as_bytes(extension)
        headroom = _HEADER + (_BEFORE_EXTENSION + len(words) if words else 0)
        with self._lock:
            room, ends, end = self._room, [], 0
            room.grow(sum(map(len, given)) + headroom * len(given))
            for packet in given:
                begin, end = end + headroom, end + headroom + len(packet)
                room.view[begin:end] = packet
                ends.append(end)
            self._send(timestamp, profile, words, headroom, room.address, end, ends)
            return [room.copy(begin, end) for begin, end in zip([0, *ends], ends)]

    def send_in_place(
        self,
        timestamp: int,
        packets: Union[bytearray, memoryview],
        ends: Sequence[int],
        headroom: int,
        *,
        profile: int = 0,
        extension: Buffer = b"",
    ) -> int:
        """Does as `send` where packets lie, as `Packetizer.packetize_units_into` leaves them: one behind the other, each
        behind `headroom` bytes, the n-th up to `ends[n]`. Each header is written to the end of its headroom, and nothing
        else. Answers how many bytes each header has, 12, and with an extension 4 and its bytes more: so RTP packet n
        begins `headroom` less that behind the end of the one before.

        Raises what `send` does, NoRoom where a header has more bytes than the headroom too, and OutOfRange where
        packets don't lie in the memory. All send nothing, and change nothing."""
        words, wide = as_bytes(extension), number("headroom", headroom)
        target = Target(packets)
        try:
            with self._lock:
                size = target.size
                return self._send(timestamp, profile, words, wide, target.address, size, ends)
        finally:
            target.release()

    def _send(
        self,
        timestamp: int,
        profile: int,
        extension: bytes,
        headroom: int,
        address: int,
        size: int,
        ends: Sequence[int],
    ) -> int:
        """Writes the headers of packets at an address, for who has the lock."""
        told, places = c_size_t(), [number("ends", end) for end in ends]
        code = library.h26x_rtp_sender_send(
            self._live(),
            number("timestamp", timestamp, 0xFFFFFFFF),
            number("profile", profile, 0xFFFF),
            *(extension, len(extension), headroom, address, size),
            *(bytes((c_size_t * len(places))(*places)), len(places), byref(told)),
        )
        if code == NoRoom.code:
            raise NoRoom(0, told.value)
        check(code)
        return told.value

    def resend(self, sequence: int) -> Optional[bytes]:
        """What goes again for the packet of this number: its retransmission, or without RTX the same packet (RFC 4588,
        4); None where that packet is held no longer, or was never sent. So call it for each number of a
        GenericNack."""
        room, size, asked = self._room, c_size_t(), number("sequence", sequence, 0xFFFF)
        with self._lock:
            while True:
                to = (room.address, room.size, byref(size))
                code = library.h26x_rtp_sender_resend(self._live(), asked, *to)
                if code != NoRoom.code:
                    check(code)
                    return room.copy(0, size.value) if size.value else None
                room.grow(size.value)

    def media(self) -> RtpStream:
        """Its stream, with the number of the next packet."""
        told = self._streams()
        return RtpStream(told.ssrc, told.payload_type, told.sequence)

    def rtx(self) -> Optional[RtpStream]:
        """The stream of its retransmissions, with the number of the next one; None where there is no RTX."""
        told = self._streams()
        if not told.has_rtx:
            return None
        return RtpStream(told.rtx_ssrc, told.rtx_payload_type, told.rtx_sequence)

    def _streams(self) -> StreamsGiven:
        told = StreamsGiven()
        check(self._with_handle(library.h26x_rtp_sender_streams, byref(told)))
        return told

    def sent(self) -> RtpSent:
        """What was sent by the SSRC of `media`. Packets that go again as they were are counted once more."""
        told = self._counted()
        return RtpSent(told.packets, told.bytes)

    def resent(self) -> RtpSent:
        """What was sent by the SSRC of `rtx`."""
        told = self._counted()
        return RtpSent(told.rtx_packets, told.rtx_bytes)

    def _counted(self) -> SentTold:
        told = SentTold()
        check(self._with_handle(library.h26x_rtp_sender_count, byref(told)))
        return told

    def __copy__(self) -> NoReturn:
        """The library has no copy of it."""
        raise TypeError(f"a {type(self).__name__} has no copy")


def _streams_given(media: RtpStream, rtx: Optional[RtpStream]) -> StreamsGiven:
    """Streams in numbers. Raises ValueError."""
    again = rtx or RtpStream(0, 0, 0)
    both = (media, again)
    return StreamsGiven(
        *(number("ssrc", it.ssrc, 0xFFFFFFFF) for it in both),
        *(number("sequence", it.sequence, 0xFFFF) for it in both),
        *(number("payload_type", it.payload_type, 255) for it in both),
        rtx is not None,
    )
