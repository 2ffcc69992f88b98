"""Why a call is refused.

A refused call changes nothing. A refused packet (PacketError) is that packet's alone: pass it over,
and go on with the next.
"""

from __future__ import annotations

from typing import Dict, Optional, Type

from ._library import library


class Error(Exception):
    """A call is refused. Its text is the library's."""

    #: The number of the refusal in h26x.h.
    code = 0

    def __init__(self, first: int = 0, second: int = 0) -> None:
        super().__init__(first, second)
        #: What the refusal is of, in numbers; 0 where it has none.
        self.first, self.second = first, second

    def __str__(self) -> str:
        text: bytes = library.h26x_strerror(self.code)
        return text.decode() + self._numbers()

    def _numbers(self) -> str:
        return ""


class PacketError(Error):
    """A packet is refused, or a unit: what it holds is wrong. Pass it over."""


class ShortPacket(PacketError):
    """A packet ends before what its type asks for (RFC 6184, 5.6 to 5.8; RFC 7798, 4.4; RFC 9328,
    4.3). Of H.265 and H.266 a unit that is a bare header, as an end of sequence, comes to it too."""

    code = 1


class NaluTypeNotHandled(PacketError):
    """H.264: a packet of this type is none that is read: 0, 25 to 27 and 29 to 31 (RFC 6184, 5.2)."""

    code = 2

    @property
    def type(self) -> int:
        """The type, from 0 to 31."""
        return self.first

    def _numbers(self) -> str:
        return f" (type {self.type})"


class StapATooLong(PacketError):
    """H.264: a STAP-A gives a unit a length where fewer bytes are left (RFC 6184, 5.7.1)."""

    code = 3

    @property
    def length(self) -> int:
        """The length of the unit that the packet gives, in bytes."""
        return self.first

    @property
    def left(self) -> int:
        """How many bytes are left for it."""
        return self.second

    def _numbers(self) -> str:
        return f" ({self.length} bytes, where {self.left} are left)"


class H265Corrupted(PacketError):
    """H.265: the packet's forbidden bit is set (RFC 7798, 1.1.4)."""

    code = 4


class H265PaciPhesTooLong(PacketError):
    """H.265: an extension of a PACI packet has at most 31 bytes (RFC 7798, 4.4.4)."""

    code = 5


class H266Corrupted(PacketError):
    """H.266: the packet's forbidden bit is set, or an aggregate holds an aggregate or a fragment (RFC
    9328, 1.1.4 and 4.3.2)."""

    code = 6


class AvcUnitTooLong(PacketError):
    """Behind lengths: a unit has over 4,294,967,295 bytes. Only a peer that never ends one comes to
    it: give up the open unit."""

    code = 7


class OutOfMemory(Error, MemoryError):
    """The library had no memory. The same call can be made again."""

    code = 8


class UnknownCodec(Error, ValueError):
    """No codec has this number."""

    code = 9


class WrongEnd(Error):
    """A handle is of another kind. No call here is given such a one."""

    code = 10


class NotOfThisCodec(Error, ValueError):
    """H.264 has no decoding order numbers, and no largest packet size."""

    code = 11


class OutOfRange(Error, ValueError):
    """A largest packet size is under 4, a window is 0 or over 16384, or packets don't lie in their memory."""

    code = 12


class NoRoom(Error):
    """Packets, a header, or a NACK of one number don't fit in the caller's memory. Nothing is changed, so the call can
    be made again."""

    code = 13

    @property
    def count(self) -> int:
        """How many packets there are; 0 of a header and a NACK."""
        return self.first

    @property
    def size(self) -> int:
        """How many bytes they take with their headroom; how many a header has, or a NACK of one number."""
        return self.second

    def _numbers(self) -> str:
        packets = f"{self.count} packets, " if self.count else ""
        return f" ({packets}{self.size} bytes)"


class NothingYet(Error):
    """No access unit has ended. No call here raises it."""

    code = 14


class UnitRefused(Error, ValueError):
    """A unit of an access unit can't go. It is the first that is told, and nothing is sent."""

    @property
    def place(self) -> int:
        """Its place, from 0."""
        return self.first

    @property
    def length(self) -> int:
        """Its length in bytes."""
        return self.second

    def _numbers(self) -> str:
        return f" (unit {self.place}, {self.length} bytes)"


class UnitWithoutHeader(UnitRefused):
    """It has no whole header: one byte of H.264, two of the others."""

    code = 15


class UnitForbidden(UnitRefused):
    """Its forbidden bit is set."""

    code = 16


class UnitOfPacketType(UnitRefused):
    """Its type is one of packets or, of H.264, none of a unit."""

    code = 17


class UnitTooLong(UnitRefused):
    """It is longer than a packet, and no fragment may go or has room for data."""

    code = 18


class ParametersError(Error, ValueError):
    """A text is no format parameters. It is the first fault that is told."""

    @property
    def place(self) -> int:
        """The place of the parameter, from 0; blank parts don't count. 0 where a brace is open."""
        return self.first

    def _numbers(self) -> str:
        return f" (parameter {self.place})"


class SdpOpenBrace(ParametersError):
    """A `{` isn't closed."""

    code = 20

    def _numbers(self) -> str:
        return ""


class SdpNotANumber(ParametersError):
    """A value is no decimal number."""

    code = 21


class SdpOutOfRange(ParametersError):
    """A value is a number, but none that the parameter may have."""

    code = 22


class SdpNotHexadecimal(ParametersError):
    """A value isn't hexadecimal digits, or not as many as the parameter has."""

    code = 23


class SdpNotTxMode(ParametersError):
    """A value is none of SRST, MRST and MRMT."""

    code = 24


class SdpTwice(ParametersError):
    """A parameter of this name stands before it."""

    code = 25


class SdpUnknownName(Error, ValueError):
    """The codec's RFC has no parameter of this name."""

    code = 26


class SdpAbsent(Error):
    """A parameter isn't given. No call here raises it."""

    code = 27


class SdpOtherKind(Error, ValueError):
    """The parameter is no number, or no units."""

    code = 28


class UnitsError(Error, ValueError):
    """A parameter's value is no units. It is the first fault that is told."""

    @property
    def place(self) -> int:
        """The place of the unit, from 0."""
        return self.first

    def _numbers(self) -> str:
        return f" (unit {self.place})"


class SdpNotBase64(UnitsError):
    """A unit's text is no base64 (RFC 4648, 4)."""

    code = 29


class SdpEmptyUnit(UnitsError):
    """A unit has no byte."""

    code = 30


class SdpOtherType(UnitsError):
    """A unit is of no type that the parameter is for."""

    code = 31


class SdpStartCode(UnitsError):
    """A unit has a start code inside."""

    code = 32


class StreamError(Error, ValueError):
    """A stream's beginning doesn't say its format."""


class SdpNoSet(StreamError):
    """No parameter set that says a profile and a level stands before the first slice."""

    code = 33


class SdpShortSet(StreamError):
    """The first that would say them ends before it does."""

    code = 34


class SdpNoProfile(StreamError):
    """H.266: the first SPS says none (its sps_ptl_dpb_hrd_params_present_flag is 0)."""

    code = 35


class SdpNoAnswer(Error):
    """Two formats have no configuration in common. No call here raises it."""

    code = 37


class RtpMapError(Error, ValueError):
    """A text is no payload type of one of the codecs."""


class SdpPayloadType(RtpMapError):
    """The payload type is no number of 7 bits."""

    code = 38


class SdpEncodingName(RtpMapError):
    """The encoding name is none of H264, H265 and H266: the line is of another codec."""

    code = 39


class SdpClockRate(RtpMapError):
    """The clock rate isn't 90000."""

    code = 40


class CapabilityPointsError(Error, ValueError):
    """A parameter's value is no capability points. It is the first fault that is told."""

    @property
    def place(self) -> int:
        """The place of the point, from 0. 0 where there are no braces."""
        return self.first

    def _numbers(self) -> str:
        return f" (point {self.place})"


class SdpNoBraces(CapabilityPointsError):
    """Capability points don't begin with `{` and end with `}`."""

    code = 41

    def _numbers(self) -> str:
        return ""


class SdpNoTool(CapabilityPointsError):
    """A capability point begins with neither `w:` nor `t:`."""

    code = 42


class _WithFault(CapabilityPointsError):
    """A part of a capability point is refused."""

    @property
    def fault(self) -> Type[Error]:
        """What is wrong with it: a ParametersError."""
        return _ERRORS[self.second]

    def _numbers(self) -> str:
        words: bytes = library.h26x_strerror(self.second)
        return f" (point {self.place}, {words.decode()})"


class SdpSegmentation(_WithFault):
    """The number behind the tool of a capability point is none from 1 to 4095."""

    code = 43


class SdpLimits(_WithFault):
    """The limits of a capability point aren't read as parameters are."""

    code = 44


class SdpNoLimit(CapabilityPointsError):
    """A capability point has none of the five limits."""

    code = 45


class ConstraintsError(Error, ValueError):
    """H.266: a parameter's value is no constraints."""


class SdpConstraintsNotBase64(ConstraintsError):
    """The text is no base64 (RFC 4648, 4)."""

    code = 46


class SdpShortConstraints(ConstraintsError):
    """They end before they say all."""

    code = 47


class SdpLongConstraints(ConstraintsError):
    """Bytes stand behind them."""

    code = 48


class SdpNotAValue(Error, ValueError):
    """A text would be read as more than a value: it has a `;` outside braces, or leaves one open."""

    code = 49


class RtpError(Error, ValueError):
    """Bytes are no RTP packet (RFC 3550, 5.1). It is the first fault from the left."""


class RtpTooShort(RtpError):
    """They are fewer than the 12 that every header has."""

    code = 50


class RtpOtherVersion(RtpError):
    """The version isn't 2."""

    code = 51


class RtpCsrcsPastTheEnd(RtpError):
    """CSRCs pass the end."""

    code = 52


class RtpExtensionPastTheEnd(RtpError):
    """The header extension passes the end."""

    code = 53


class RtpPaddingOfZero(RtpError):
    """P is set, and the last byte says that 0 bytes are padding."""

    code = 54


class RtpPaddingTooLong(RtpError):
    """The padding is longer than what stands behind the header."""

    code = 55


class RtpWriteError(Error, ValueError):
    """An RTP packet isn't written (RFC 3550, 5.1). It is the first part that has no place in one."""


class RtpPayloadType(RtpWriteError):
    """The payload type is above 127."""

    code = 56


class RtpCsrcs(RtpWriteError):
    """The CSRCs aren't whole, four bytes each, or more than 15."""

    code = 57


class RtpExtension(RtpWriteError):
    """The extension isn't of whole words of four bytes, or has over 65,535."""

    code = 58


class RtpPadding(RtpWriteError):
    """The last byte of the padding isn't its length."""

    code = 59


class RtxNoOriginal(Error, ValueError):
    """A retransmission has under two bytes of payload: it is padding, or a probe (RFC 4588, 4)."""

    code = 60


class RedError(Error, ValueError):
    """Bytes are no redundant payload (RFC 2198, 3). It is the first fault from the left."""


class RedHeadersPastTheEnd(RedError):
    """No header of a block has F clear."""

    code = 61


class RedBlocksPastTheEnd(RedError):
    """Blocks are longer than what stands behind the headers."""

    code = 62


class RtpNoElement(Error):
    """No element of a header extension is left. No call here raises it."""

    code = 75


class RtpElementPastTheEnd(Error, ValueError):
    """The length of an element passes the end of the header extension, or isn't there (RFC 8285, 4.2 and 4.3)."""

    code = 76


class SdpNoApt(Error, ValueError):
    """A format of retransmission says no payload type that it belongs to (RFC 4588, 8.3)."""

    code = 63


class BrokenRule(Error, ValueError):
    """A rule that a format of one's own breaks (RFC 6184, 8.1; RFC 7798, 7.1; RFC 9328, 7.2)."""

    #: The parameter that it is of; None where it is of none.
    parameter: Optional[str] = None

    def _numbers(self) -> str:
        return "" if self.parameter is None else f" ({self.parameter})"


class SdpRuleProfile(BrokenRule):
    """The standard has no such profile."""

    code = 64


class SdpRuleLevel(BrokenRule):
    """The standard has no such level."""

    code = 65


class SdpRuleHighestLevel(BrokenRule):
    """The highest level that is received isn't above the level, or is none."""

    code = 66


class SdpRuleBelowLevel(BrokenRule):
    """A parameter is below what the highest level asks for."""

    code = 67


class SdpRuleReordering(BrokenRule):
    """What is said of packets out of order stands where there are none, or is absent."""

    code = 68


class SdpRuleOutOfOrder(BrokenRule):
    """Units may be sent in another order than decoded, and `any_order` isn't said."""

    code = 69


class SdpRuleAboveLevel(BrokenRule):
    """A parameter is above 16 times what the highest level asks for."""

    code = 70


class SdpRuleAspectRatios(BrokenRule):
    """`sar-supported` is above `sar-understood`, and not 255."""

    code = 71


class SdpRuleInBandSets(BrokenRule):
    """Parameter sets of levels are used where all go in band."""

    code = 72


class SdpRuleHashTypes(BrokenRule):
    """`include-dph` is no list of numbers up to 255."""

    code = 73


class SdpNoLevelSets(Error, ValueError):
    """A level of `sprop-level-parameter-sets` has no sets. It is the cause of a LevelSetsError."""

    code = 74


_ERRORS: Dict[int, Type[Error]] = {
    error.code: error
    for error in (
        ShortPacket,
        NaluTypeNotHandled,
        StapATooLong,
        H265Corrupted,
        H265PaciPhesTooLong,
        H266Corrupted,
        AvcUnitTooLong,
        OutOfMemory,
        UnknownCodec,
        WrongEnd,
        NotOfThisCodec,
        OutOfRange,
        NoRoom,
        NothingYet,
        UnitWithoutHeader,
        UnitForbidden,
        UnitOfPacketType,
        UnitTooLong,
        SdpOpenBrace,
        SdpNotANumber,
        SdpOutOfRange,
        SdpNotHexadecimal,
        SdpNotTxMode,
        SdpTwice,
        SdpUnknownName,
        SdpAbsent,
        SdpOtherKind,
        SdpNotBase64,
        SdpEmptyUnit,
        SdpOtherType,
        SdpStartCode,
        SdpNoSet,
        SdpShortSet,
        SdpNoProfile,
        SdpNoAnswer,
        SdpPayloadType,
        SdpEncodingName,
        SdpClockRate,
        SdpNoBraces,
        SdpNoTool,
        SdpSegmentation,
        SdpLimits,
        SdpNoLimit,
        SdpConstraintsNotBase64,
        SdpShortConstraints,
        SdpLongConstraints,
        SdpNotAValue,
        RtpTooShort,
        RtpOtherVersion,
        RtpCsrcsPastTheEnd,
        RtpExtensionPastTheEnd,
        RtpPaddingOfZero,
        RtpPaddingTooLong,
        RtpPayloadType,
        RtpCsrcs,
        RtpExtension,
        RtpPadding,
        RtxNoOriginal,
        RedHeadersPastTheEnd,
        RedBlocksPastTheEnd,
        SdpNoApt,
        SdpRuleProfile,
        SdpRuleLevel,
        SdpRuleHighestLevel,
        SdpRuleBelowLevel,
        SdpRuleReordering,
        SdpRuleOutOfOrder,
        SdpRuleAboveLevel,
        SdpRuleAspectRatios,
        SdpRuleInBandSets,
        SdpRuleHashTypes,
        SdpNoLevelSets,
        RtpNoElement,
        RtpElementPastTheEnd,
    )
}


def error_of(code: int, first: int = 0, second: int = 0) -> Error:
    """The error of a code that is none of H26X_OK."""
    return _ERRORS[code](first, second)


def check(code: int) -> None:
    """Raises the error of a code where it is one."""
    if code != 0:
        raise error_of(code)
