"""Sending: units of coded video cut into the payloads of RTP packets."""

from __future__ import annotations

from ctypes import byref, c_size_t
from enum import IntEnum
from typing import Any, List, Optional, Tuple, Union

from ._handle import Owner
from ._library import Handle, Refusal, library
from ._memory import Buffer, Ends, Room, Target, as_bytes, number
from .codec import Codec, codec_of
from .errors import NoRoom, check, error_of

#: The largest packet size of H.265 and H.266 at first, in bytes.
DEFAULT_MAX_PACKET_SIZE = 1200


#: The calls that say which unit can't go.
_NAMING = (library.h26x_packetize_units_into, library.h26x_units_size)


class Packing(IntEnum):
    """Which units of an access unit share packets."""

    #: Those that fit one packet.
    TOGETHER = 0
    #: Of these, those that are no slices: a slice goes out at once.
    BEFORE_SLICES = 1
    #: None: with a packet one slice is lost.
    APART = 2
    #: None, and no unit goes in fragments (packetization-mode 0 of H.264; RFC 6184, 6.2).
    SINGLE = 3


class Packetizer(Owner):
    """Cuts encoded video into RTP payloads within a limit (RFC 6184, 5; RFC 7798, 4.4; RFC 9328, 4.3).

    RTP's own header isn't written (RtpHeader does). One object may be used by several threads; one call at a time
    runs.

    >>> with Packetizer(Codec.H264) as packetizer:
    ...     packetizer.packetize(5, bytes.fromhex("000001 65 010203040506"))
    [b'|\\x85\\x01\\x02\\x03', b'|E\\x04\\x05\\x06']
    """

    _CLONE = library.h26x_packetizer_clone
    _FREE = library.h26x_packetizer_free

    def __init__(self, codec: int, *, donl: bool = False) -> None:
        """A packetizer for which no parameter set waits.

        `donl`: whether packets bear decoding order numbers, which begin at 0 (H.265 and H.266), as
        `sprop-max-don-diff` says. Raises UnknownCodec, NotOfThisCodec or OutOfMemory.
        """
        known = codec_of(codec)
        made = Handle()
        check(library.h26x_packetizer_new(known, donl, byref(made)))
        largest = None if known is Codec.H264 else DEFAULT_MAX_PACKET_SIZE
        self._set_up(made, known, donl, largest)

    def _set_up(self, handle: Handle, codec: Codec, donl: bool, largest: Optional[int]) -> None:
        self._codec, self._donl, self._max_packet_size = codec, donl, largest
        self._lowest_header, self._packing, self._delimiters = False, Packing.TOGETHER, True
        self._room, self._ends = Room(), Ends()
        self._count, self._size, self._why = c_size_t(), c_size_t(), Refusal()
        self._own(handle)

    @property
    def codec(self) -> Codec:
        """Its codec."""
        return self._codec

    @property
    def donl(self) -> bool:
        """Whether packets bear decoding order numbers. Setting it to True begins at 0 again; of H.264
        setting it raises NotOfThisCodec. Parameter sets that wait stay."""
        return self._donl

    @donl.setter
    def donl(self, value: bool) -> None:
        check(self._with_handle(library.h26x_packetizer_set_numbers, value))
        self._donl = value

    @property
    def max_packet_size(self) -> Optional[int]:
        """The largest packet size of H.265 and H.266 in bytes, whatever the `mtu`: 1200 at first. None
        of H.264.

        Setting it raises OutOfRange under 4, and NotOfThisCodec of H.264.
        """
        return self._max_packet_size

    @max_packet_size.setter
    def max_packet_size(self, value: int) -> None:
        size = number("max_packet_size", value, 65535)
        check(self._with_handle(library.h26x_packetizer_set_max_size, size))
        self._max_packet_size = size

    @property
    def lowest_header(self) -> bool:
        """Whether parameter sets of H.265 that go in one packet have the header that RFC 7798, 4.4.2 asks
        for: the lowest layer and the lowest temporal id of these sets. It is off at first, and then they
        have those of the unit behind them, as str0m's have.

        **Where a forwarder drops packets by temporal id, turn it on**: else sets before a slice of a high
        one are dropped with it. Receivers read both alike. Those of H.266 have their header in any case;
        of H.264 setting it raises NotOfThisCodec.
        """
        return self._lowest_header

    @lowest_header.setter
    def lowest_header(self, value: bool) -> None:
        check(self._with_handle(library.h26x_packetizer_set_lowest_header, value))
        self._lowest_header = value

    @property
    def packing(self) -> Packing:
        """Which units share packets that `packetize_units` makes: TOGETHER at first. Setting it to a
        number that no Packing has raises OutOfRange."""
        return self._packing

    @packing.setter
    def packing(self, value: int) -> None:
        asked = number("packing", value, 0xFFFFFFFF)
        check(self._with_handle(library.h26x_packetizer_set_packing, asked))
        self._packing = Packing(asked)

    @property
    def delimiters(self) -> bool:
        """Whether `packetize_units` sends access unit delimiters and filler data, of which a decoder needs
        nothing. It does at first; else an access unit is sent as if these units weren't there, but that
        a unit that can't go is told by its place among all. A stream of H.266 of several layers has to
        have its delimiters (H.266, 7.4.2.4)."""
        return self._delimiters

    @delimiters.setter
    def delimiters(self, value: bool) -> None:
        check(self._with_handle(library.h26x_packetizer_set_delimiters, value))
        self._delimiters = value

    def packetize(self, mtu: int, payload: Buffer) -> List[bytes]:
        """The RTP payloads of `payload`, in order, each of at most `mtu` bytes.

        `payload` is one NAL unit, or units behind start codes (Annex B), of an access unit or a part
        of one. `mtu` doesn't count RTP's header and what is below it. The marker bit goes on the last
        packet of an access unit.

        Raises OutOfMemory alone, which changes nothing.

        What bites:

        - **Packets of H.265 and H.266 have at most 1200 bytes** whatever the `mtu`, until
          `max_packet_size` says otherwise.
        - **Parameter sets wait** for the next unit that is none, and go before it. One that no packet
          holds is dropped, and nothing says so, since sets aren't fragmented. Keep `mtu` (and
          `max_packet_size`) above their lengths, by 2 bytes more with `donl`; or give them to the peer
          in SDP.
        - **Of several sets of a kind** that wait together the latest alone goes, whatever their ids.
          Send each by `packetize_unit`.
        - **A PPS waits until there is an SPS**, an SPS until there is a PPS, and a VPS until there are
          both; pictures go without them meanwhile.
        - Access unit delimiters aren't sent, nor units of H.266 of types 28 and 29.
        - A unit of H.265 or H.266 that is a bare header of two bytes is sent, and depacketizers refuse
          its packet as ShortPacket, which changes nothing.
        """
        return self._packets(library.h26x_packetize_into, mtu, payload)

    def packetize_unit(self, mtu: int, unit: Buffer) -> List[bytes]:
        """The RTP payloads of one NAL unit as it is: no start code is looked for in it, and whatever
        its kind it is sent now, itself or in fragments. Parameter sets that wait stay.

        There are no packets where the unit has no whole header (one byte of H.264, two of the others),
        under an `mtu` of 1 (H.264) or 4, and of a unit longer than a packet where no fragment has room
        for data. Raises OutOfMemory alone.
        """
        return self._packets(library.h26x_packetize_unit_into, mtu, unit)

    def packetize_units(self, mtu: int, access_unit: Buffer) -> List[bytes]:
        """The RTP payloads of one access unit in Annex B form, as an encoder gives it: every unit, in
        order and as it is, whatever its kind (but see `delimiters`), so several sets of a kind and delimiters arrive too.

        With `packing` TOGETHER no sender that brings these units needs fewer packets (RFC 6184, 5.7.1;
        RFC 7798, 4.4.2; RFC 9328, 4.3.2). Parameter sets that wait for `packetize` stay: one stream
        uses the one call or the other.

        Where a unit can't go nothing is sent, and a UnitRefused says which is the first, and why:
        UnitWithoutHeader, UnitForbidden, UnitOfPacketType or UnitTooLong. Raises OutOfMemory too.
        """
        return self._packets(library.h26x_packetize_units_into, mtu, access_unit)

    def packetize_into(
        self,
        mtu: int,
        payload: Buffer,
        into: Union[bytearray, memoryview],
        headroom: int = 0,
    ) -> List[int]:
        """Writes the packets of `packetize` straight into the caller's memory, and answers where each
        ends.

        They stand one behind the other from the front of `into`, each behind `headroom` bytes, which
        are left as they are for the headers of the layers below (`mtu` doesn't count them). Packet n
        begins, with its headroom, where the one before it ends, and ends at the n-th number.

        Raises NoRoom where they don't fit: it says how many bytes they take, and nothing is changed,
        so that the call can be made again. Raises OutOfMemory. `into` is written in one piece of
        memory (C-contiguous); no other thread may use it meanwhile, and a bytearray can't change its
        size. `payload` is copied where it is no `bytes`, so it may overlap `into`.
        """
        return self._packets_into(library.h26x_packetize_into, mtu, payload, into, headroom)

    def packetize_unit_into(
        self,
        mtu: int,
        unit: Buffer,
        into: Union[bytearray, memoryview],
        headroom: int = 0,
    ) -> List[int]:
        """The same as `packetize_into` of one unit as it is, as `packetize_unit` sends it."""
        return self._packets_into(library.h26x_packetize_unit_into, mtu, unit, into, headroom)

    def packetize_units_into(
        self,
        mtu: int,
        access_unit: Buffer,
        into: Union[bytearray, memoryview],
        headroom: int = 0,
    ) -> List[int]:
        """The same as `packetize_into` of one access unit, as `packetize_units` sends it."""
        call = library.h26x_packetize_units_into
        return self._packets_into(call, mtu, access_unit, into, headroom)

    def packets_size(self, mtu: int, payload: Buffer, headroom: int = 0) -> Tuple[int, int]:
        """How many packets `packetize_into` would make, and how many bytes they take with their
        headroom. The packetizer is left as it is. Raises OutOfMemory."""
        return self._sizes(library.h26x_packets_size, mtu, payload, headroom)

    def units_size(self, mtu: int, access_unit: Buffer, headroom: int = 0) -> Tuple[int, int]:
        """The same of `packetize_units_into`. Raises what that does."""
        return self._sizes(library.h26x_units_size, mtu, access_unit, headroom)

    def _sizes(self, call: Any, mtu: int, data: Buffer, headroom: int) -> Tuple[int, int]:
        mtu, headroom, data = number("mtu", mtu), number("headroom", headroom), as_bytes(data)
        with self._lock:
            told = self._outputs(call)
            self._check(call, call(self._live(), mtu, data, len(data), headroom, *told))
            return self._count.value, self._size.value

    def _outputs(self, call: Any) -> Tuple[Any, ...]:
        """Where a call tells how many packets there are, how many bytes, and which unit can't go."""
        counted = (byref(self._count), byref(self._size))
        return (*counted, byref(self._why)) if call in _NAMING else counted

    def _check(self, call: Any, code: int) -> None:
        if code != 0 and call in _NAMING:
            raise error_of(code, self._why.first, self._why.second)
        check(code)

    def copy(self) -> Packetizer:
        """The same packetizer again: the sets that wait, its next number, its settings. Raises
        OutOfMemory."""
        made = type(self).__new__(type(self))
        made._set_up(self._cloned(), self._codec, self._donl, self._max_packet_size)
        made._lowest_header, made._packing = self._lowest_header, self._packing
        made._delimiters = self._delimiters
        return made

    __copy__ = copy

    def _packets(self, call: Any, mtu: int, data: Buffer) -> List[bytes]:
        """The packets that a call makes, each in memory of its own."""
        mtu, data = number("mtu", mtu), as_bytes(data)
        with self._lock:
            room = self._room
            while not self._makes(call, mtu, data, 0, room.address, room.size):
                room.grow(self._size.value)
            packets, begin = [], 0
            for end in self._ends.copy(self._count.value):
                packets.append(room.copy(begin, end))
                begin = end
            return packets

    def _packets_into(
        self,
        call: Any,
        mtu: int,
        data: Buffer,
        into: Union[bytearray, memoryview],
        headroom: int,
    ) -> List[int]:
        """Has a call write its packets into the caller's memory, and answers their ends."""
        mtu, headroom, data = number("mtu", mtu), number("headroom", headroom), as_bytes(data)
        with self._lock:
            target = Target(into)
            try:
                while not self._makes(call, mtu, data, headroom, target.address, target.size):
                    if self._size.value > target.size:
                        raise NoRoom(self._count.value, self._size.value)
            finally:
                target.release()
            return self._ends.copy(self._count.value)

    def _makes(
        self, call: Any, mtu: int, data: bytes, headroom: int, address: int, size: int
    ) -> bool:
        """Makes packets at an address, for who has the lock. False where there is no room: then as many
        ends have room as there are packets, and the count and the size are told."""
        ends = self._ends
        code = call(
            self._live(),
            mtu,
            data,
            len(data),
            headroom,
            address,
            size,
            ends.address,
            ends.size,
            *self._outputs(call),
        )
        if code == NoRoom.code:
            ends.grow(self._count.value)
            return False
        self._check(call, code)
        return True
