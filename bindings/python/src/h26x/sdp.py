"""Payload types and format parameters of SDP: what stands in an `a=rtpmap` line, and behind the payload
type in an `a=fmtp` line (RFC 6184, 8; RFC 7798, 7; RFC 9328, 7)."""

from __future__ import annotations

from contextlib import ExitStack, contextmanager
from ctypes import byref, c_size_t, c_uint8, c_uint32, c_uint64
from dataclasses import dataclass
from enum import Enum, IntEnum
from typing import Any, Iterator, List, NamedTuple, NoReturn, Optional, Tuple

from ._handle import Owner
from ._library import ConstraintsSaid, Handle, PointNumbers, Refusal, StreamNumbers, library
from ._memory import Buffer, Room, as_bytes, number
from .codec import Codec, codec_of
from .errors import (
    BrokenRule,
    Error,
    NoRoom,
    NotOfThisCodec,
    OutOfMemory,
    SdpAbsent,
    SdpNoAnswer,
    SdpRuleAboveLevel,
    SdpRuleBelowLevel,
    check,
    error_of,
)


class Direction(IntEnum):
    """Which way an end's media goes (RFC 3264, 5.1 and 6.1)."""

    #: `a=sendrecv`, and what isn't said.
    SENDRECV = 0
    #: `a=sendonly`: it sends alone.
    SENDONLY = 1
    #: `a=recvonly`: it receives alone.
    RECVONLY = 2


class AgreedSets(IntEnum):
    """Where the parameter sets of a stream are (RFC 6184, 8.1)."""

    #: In the stream: who sends it sends them with its units.
    IN_BAND = 0
    #: In the sender's format: `units` has them of sprop-parameter-sets, or sprop-vps, sprop-sps and sprop-pps.
    TOLD = 1
    #: In its sprop-level-parameter-sets: `sets_of_level` has them, of the stream's level.
    TOLD_OF_LEVEL = 2


class AgreedStream(NamedTuple):
    """A stream from one end to the other."""

    #: The highest level of it: of H.264 twice level_idc, 21 for level 1b; else as level-id says it.
    level: int
    #: packetization-mode of H.264; None of H.265 and H.266.
    mode: Optional[int]
    #: Where its parameter sets are.
    sets: AgreedSets


class Agreed(NamedTuple):
    """What an end sends and receives; None where there is none of it."""

    sends: Optional[AgreedStream]
    receives: Optional[AgreedStream]


class LevelSets(NamedTuple):
    """The parameter sets of a level of H.264 (RFC 6184, 8.1)."""

    profile_level_id: bytes  # profile_idc, profile_iop and level_idc
    sets: List[bytes]


class LevelSetsError(ValueError):
    """A level of sprop-level-parameter-sets is none; its cause says why."""

    def __init__(self, place: int) -> None:
        super().__init__(f"level {place} is none")
        self.place = place  # from 0


#: How many bytes constraints of H.266 are at most: of 89 bits and 255 additional ones (Rec. ITU-T H.266,
#: 7.3.3.2).
_MOST_CONSTRAINTS = 43


class Constraints(NamedTuple):
    """What `interop-constraints` says (RFC 7798, 7.1; RFC 9328, 7.2)."""

    #: The 48 flags of H.265 behind the compatibility flags, the first the highest bit; of H.266 0.
    flags: int
    #: Their bytes: six of H.265; of H.266 one, or from 11 to 43.
    data: bytes
    #: Each picture is a frame (general_ or ptl_frame_only_constraint_flag).
    frame_only: bool
    #: There may be several layers (ptl_multilayer_enabled_flag; H.266).
    multilayer: bool
    #: General constraints are among them (gci_present_flag; H.266).
    general: bool


class ParallelTool(Enum):
    """How pictures are coded for parallel decoding."""

    #: By tiles or slices.
    NO_WAVEFRONTS = "t"
    #: By wavefronts.
    WAVEFRONTS = "w"


_TOOLS = (ParallelTool.NO_WAVEFRONTS, ParallelTool.WAVEFRONTS)


class CapabilityPoint(NamedTuple):
    """What a decoder of H.265 can do where a stream is coded for parallel decoding, beyond what it can do
    with any (RFC 7798, 7.1). A limit that isn't there is None."""

    #: The tool that the stream uses.
    tool: ParallelTool
    #: The least min_spatial_segmentation_idc that it has, from 1 to 4095.
    spatial_segmentation: int
    #: 0 Main tier, 1 High tier.
    tier_flag: Optional[int] = None
    #: The highest level, as in level-id.
    level_id: Optional[int] = None
    #: The most luma samples in a second.
    max_lsr: Optional[int] = None
    #: The most luma samples of a picture.
    max_lps: Optional[int] = None
    #: The highest bit rate, in units of CpbBrVclFactor or CpbBrNalFactor bits a second.
    max_br: Optional[int] = None


class FormatParameters(Owner):
    """The format parameters of a codec, which never change.

    A name is one of the codec's RFC, as "profile-level-id", without regard to case; SdpUnknownName is
    raised of others.

    One object may be used by several threads; one call at a time runs.

    >>> line = "level-asymmetry-allowed=1; packetization-mode=1; Profile-Level-ID=42e01f; x=1"
    >>> offered = FormatParameters.read(Codec.H264, line)
    >>> offered.value("profile-level-id"), offered.number("packetization-mode"), offered.others()
    ('42e01f', 1, [('x', '1')])
    >>> ours = FormatParameters.read(Codec.H264, "profile-level-id=42e015;packetization-mode=1")
    >>> str(offered.answer(ours))
    'profile-level-id=42e015;packetization-mode=1'
    """

    _FREE = library.h26x_sdp_free

    def __init__(self, codec: int) -> None:
        """Those of a codec, none of which is given. Raises UnknownCodec or OutOfMemory."""
        known = codec_of(codec)
        self._set_up(known, _read(known, ""))

    def _set_up(self, codec: Codec, handle: Handle) -> None:
        self._codec, self._room, self._more = codec, Room(), Room()
        self._own(handle)

    @classmethod
    def _of(cls, codec: Codec, handle: Handle) -> FormatParameters:
        made = cls.__new__(cls)
        made._set_up(codec, handle)
        return made

    @classmethod
    def read(cls, codec: int, text: str) -> FormatParameters:
        """Those of a text. White space round `;` and `=` and blank parts are left out, a `;` in braces ends
        nothing, and what the RFC doesn't have is kept. Raises a ParametersError, UnknownCodec or
        OutOfMemory."""
        known = codec_of(codec)
        return cls._of(known, _read(known, text))

    @classmethod
    def of_payload(cls, codec: int, payload: Buffer) -> FormatParameters:
        """What a sender says of its stream, of the bytes that it begins with (Annex B): profile, tier and
        level of the first SPS, and the sets before the first slice; of H.264 packetization-mode=1 too, as
        packetizers send. Raises a StreamError, UnknownCodec or OutOfMemory.

        >>> sets = bytes.fromhex("000001 6742c01f 000001 68ce")
        >>> str(FormatParameters.of_payload(Codec.H264, sets))
        'profile-level-id=42c01f;sprop-parameter-sets=Z0LAHw==,aM4=;packetization-mode=1'
        """
        known, data, made = codec_of(codec), as_bytes(payload), Handle()
        check(library.h26x_sdp_of_payload(known, data, len(data), byref(made)))
        return cls._of(known, made)

    @property
    def codec(self) -> Codec:
        """Their codec."""
        return self._codec

    def __str__(self) -> str:
        """What stands behind the payload type in an `a=fmtp` line: those of the RFC in its order, and the
        others behind. It is read as the same ones. Raises OutOfMemory."""
        with self._lock:
            return self._written(library.h26x_sdp_write).decode()

    def __eq__(self, other: object) -> bool:
        """Whether both are of one codec and have the same values as texts, `42e01f` being another than
        `42E01F`, and the same others in the same order. What is closed equals itself alone. Raises
        OutOfMemory."""
        if not isinstance(other, FormatParameters):
            return NotImplemented
        if other is self:
            return True
        if self.closed or other.closed:
            return False
        return self._codec == other._codec and str(self) == str(other)

    def __hash__(self) -> int:
        """That of the codec and the text. Raises OutOfMemory."""
        return hash((self._codec, str(self)))

    def with_value(self, name: str, value: str) -> FormatParameters:
        """The same with a parameter's value, in the place of the one that it has; white space at its ends is
        left out. Raises SdpNotAValue, of a text that would be read as more than a value; a ParametersError, of
        a value that is none of the parameter; or OutOfMemory.

        >>> own = FormatParameters.read(Codec.H264, "profile-level-id=42e01f;packetization-mode=1")
        >>> str(own.with_value("profile-level-id", "42e015").without_value("packetization-mode"))
        'profile-level-id=42e015'
        """
        named, given = _utf8(name), _utf8(value)
        return self._changed(library.h26x_sdp_set, named, len(named), given, len(given))

    def without_value(self, name: str) -> FormatParameters:
        """The same without a parameter's value, where it has one. Raises OutOfMemory."""
        named = _utf8(name)
        return self._changed(library.h26x_sdp_unset, named, len(named))

    def _changed(self, call: Any, *arguments: Any) -> FormatParameters:
        """What a call makes of a copy."""
        made = self._of(self._codec, _read(self._codec, str(self)))
        check(made._with_handle(call, *arguments))
        return made

    def value(self, name: str, or_default: bool = False) -> Optional[str]:
        """The value of a parameter, as it came. Where it is absent: with `or_default` what the RFC takes
        for it, if it says what; else None."""
        named = _utf8(name)
        with self._lock:
            try:
                call = library.h26x_sdp_value
                return self._written(call, named, len(named), or_default).decode()
            except SdpAbsent:
                return None

    def number(self, name: str, or_default: bool = False) -> Optional[int]:
        """The same of its number. Raises SdpOtherKind where the RFC has no number there."""
        named, found = _utf8(name), c_uint64()
        given = (named, len(named), or_default, byref(found))
        code = self._with_handle(library.h26x_sdp_number, *given)
        if code == SdpAbsent.code:
            return None
        check(code)
        return found.value

    def units(self, name: str) -> List[bytes]:
        """The units of a parameter, out of base64: sprop-parameter-sets, sprop-vps and so on; none where it
        is absent. Give a peer's sets to the decoder before the first picture, each behind 00 00 00 01.

        Raises SdpOtherKind where the RFC has no units there; a UnitsError, since `read` doesn't look into
        base64; or MemoryError."""
        named, count, why = _utf8(name), c_size_t(), Refusal()
        given = (named, len(named))
        with self._lock:
            code = library.h26x_sdp_units(self._live(), *given, byref(count), byref(why))
            if code == SdpAbsent.code:
                return []
            if code != 0:
                raise error_of(code, why.first, why.second)
            call = library.h26x_sdp_unit
            return [self._written(call, *given, i, more=(byref(why),)) for i in range(count.value)]

    def level_sets(self) -> List[LevelSets]:
        """The parameter sets of other levels of H.264, those of sprop-level-parameter-sets; none where it is
        absent. Raises a LevelSetsError, which says what is wrong with the first level that is none; or
        OutOfMemory.

        >>> line = "sprop-level-parameter-sets=42e00b:Z0LgCw==,aMs=:4de00b:aMs="
        >>> FormatParameters.read(Codec.H264, line).level_sets()[1]
        LevelSets(profile_level_id=b'M\\xe0\\x0b', sets=[b'h\\xcb'])
        """
        value = self.value("sprop-level-parameter-sets")
        if value is None:
            return []
        texts, levels = value.split(":"), []
        for n in range((len(texts) + 1) // 2):
            try:
                levels.append(_level_of(*texts[2 * n : 2 * n + 2]))
            except OutOfMemory:
                raise
            except ValueError as fault:
                raise LevelSetsError(n) from fault
        return levels

    def sets_of_level(self, level: int) -> List[bytes]:
        """The parameter sets that sprop-level-parameter-sets of H.264 has for a level, as an AgreedStream says it: of
        the first there that is of that level; none where there is none. Give them to the decoder before the first
        picture, each behind 00 00 00 01.

        Raises a LevelSetsError of the first level that is none, whose cause says why; NotOfThisCodec of H.265 and
        H.266; or OutOfMemory.

        >>> line = "sprop-level-parameter-sets=42e00b:Z0LgCw==,aMs=:42e00d:Z0LgDQ==,aMs="
        >>> [unit.hex() for unit in FormatParameters.read(Codec.H264, line).sets_of_level(26)]
        ['6742e00d', '68cb']
        """
        why, wanted = Refusal(), number("level", level, 0xFFFFFFFFFFFFFFFF)
        sets: List[bytes] = []
        with self._lock:
            try:
                call = library.h26x_sdp_level_unit
                while True:
                    sets.append(self._written(call, wanted, len(sets), more=(byref(why),)))
            except SdpAbsent:
                return sets
            except (NotOfThisCodec, OutOfMemory):
                raise
            except Error as fault:
                raise LevelSetsError(why.first) from fault

    def _written(self, call: Any, *arguments: Any, more: Tuple[Any, ...] = ()) -> bytes:
        """What a call writes, for who has the lock."""
        room, size = self._room, c_size_t()
        while True:
            to = (room.address, room.size, byref(size))
            code = call(self._live(), *arguments, *to, *more)
            if code != NoRoom.code:
                check(code)
                return room.copy(0, size.value)
            room.grow(size.value)

    def others(self) -> List[Tuple[str, str]]:
        """Names and values of those that the RFC doesn't have, in the order in which they came. A name may
        be there twice."""
        found: List[Tuple[str, str]] = []
        with self._lock:
            while (one := self._other(len(found))) is not None:
                found.append(one)
        return found

    def _other(self, i: int) -> Optional[Tuple[str, str]]:
        """Number `i` of them, for who has the lock; None past the last."""
        rooms, sizes = (self._room, self._more), (c_size_t(), c_size_t())
        while True:
            to = [(room.address, room.size, byref(size)) for room, size in zip(rooms, sizes)]
            code = library.h26x_sdp_other(self._live(), i, *to[0], *to[1])
            if code == SdpAbsent.code:
                return None
            if code != NoRoom.code:
                check(code)
                name, value = (room.copy(0, size.value) for room, size in zip(rooms, sizes))
                return name.decode(), value.decode()
            for room, size in zip(rooms, sizes):
                room.grow(size.value)

    @property
    def max_don_diff(self) -> int:
        """`sprop-max-don-diff` of H.265 and H.266, or 0 where it is absent: packets bear decoding order
        numbers (`donl`) where it is over 0. Raises NotOfThisCodec of H.264."""
        found = c_uint32()
        check(self._with_handle(library.h26x_sdp_max_don_diff, byref(found)))
        return found.value

    def interop_constraints(self) -> Constraints:
        """The constraints of H.265 or H.266, or where they are absent what the RFC takes for them. Raises a
        ConstraintsError of H.266, NotOfThisCodec of H.264, or OutOfMemory.

        >>> FormatParameters(Codec.H265).interop_constraints().data.hex()
        'b00000000000'
        """
        said, room, call = ConstraintsSaid(), self._room, library.h26x_sdp_constraints
        with self._lock:
            room.grow(_MOST_CONSTRAINTS)
            check(call(self._live(), room.address, room.size, byref(said)))
            data = room.copy(0, said.len)
        return Constraints(said.flags, data, said.frame_only, said.multilayer, said.general)

    def capability_points(self, or_default: bool = False) -> List[CapabilityPoint]:
        """The capability points of H.265, those of dec-parallel-cap; none where it is absent. With
        `or_default` a limit that a point leaves out is what is said outside: tier-flag, max-recv-level-id, or
        where that is absent level-id, max-lsr, max-lps and max-br.

        Raises a CapabilityPointsError, since `read` doesn't look into them; NotOfThisCodec of H.264 and H.266;
        or OutOfMemory.

        >>> line = "level-id=93;dec-parallel-cap={w:8;max-lsr=62668800}"
        >>> point = FormatParameters.read(Codec.H265, line).capability_points(or_default=True)[0]
        >>> point.tool, point.spatial_segmentation, point.level_id, point.max_lps
        (<ParallelTool.WAVEFRONTS: 'w'>, 8, 93, None)
        """
        call, count, why, most = library.h26x_sdp_capability_points, c_size_t(), Refusal(), 4
        with self._lock:
            while True:
                points = (PointNumbers * most)()
                code = call(self._live(), or_default, points, most, byref(count), byref(why))
                if code == SdpAbsent.code:
                    return []
                if code != 0:
                    raise error_of(code, why.first, why.second)
                if count.value <= most:
                    return [_point_of(point) for point in points[: count.value]]
                most = count.value

    def answer(
        self,
        *ours: FormatParameters,
        any_order: bool = False,
        webrtc: bool = False,
        direction: Direction = Direction.SENDRECV,
        multicast: bool = False,
    ) -> Optional[FormatParameters]:
        """The answer to these parameters of an offer, by the first of ours that gives one; None where none
        does, as where the standard has no such profile or level. One of ours that its RFC forbids, as a
        max-fs below the level's, gives none (RFC 6184, 8.2.2; RFC 7798, 7.2.2; RFC 9328, 7.3.2). Raises
        OutOfMemory.

        `direction` is which way our media goes: parameters that aren't usable there, by the tables of the
        RFCs, are ignored, and not answered. By `multicast` the offered level is kept, or there is no answer.

        Formats whose units may be sent in another order than decoded (packetization-mode 2,
        sprop-max-don-diff above 0) are answered only with `any_order`: by an end that reads STAP-B, MTAP and
        FU-B of H.264, which a Depacketizer doesn't, and puts units in order by their decoding order numbers.

        With `webrtc` they are answered as WebRTC's peers do it. H.264 without profile-level-id is 42e01f, and
        not 42000a (libwebrtc, aiortc), so that a format without any parameter is that in packetization-mode 0;
        who decodes Baseline or High takes an offer of its constrained profile, 42e01f or 640c1f, and answers
        with that, which it is to send. Of H.265 interop-constraints and profile-compatibility-indicator aren't
        compared (libwebrtc).

        To answer an offer, go through its formats in their order: the first that is answered gives the
        answer, with its payload type (RFC 3264, 6.1)."""
        for own in ours:
            made = Handle()
            code = self._answer(own, made, _options(any_order, webrtc, direction, multicast))
            if code != SdpNoAnswer.code:
                check(code)
                return self._of(self._codec, made)
        return None

    def _answer(self, ours: FormatParameters, made: Handle, options: int) -> int:
        """Has the answer made by one of ours."""
        with _both(self, ours):
            code = library.h26x_sdp_answer_with(self._live(), ours._live(), options, byref(made))
        return int(code)

    def agreed(
        self,
        other: FormatParameters,
        *,
        any_order: bool = False,
        webrtc: bool = False,
        direction: Direction = Direction.SENDRECV,
        multicast: bool = False,
    ) -> Agreed:
        """What an offered format and its answer agree on, of the end that wrote this one, whichever of the two it is.
        None is what its direction hasn't, and where the formats say no level. What may be said is as of `answer`.

        A receiver starts with the sets of `other`, where these are told: give them to the decoder, and say
        `has_sets`. Raises SdpNoAnswer of two codecs.

        >>> both = "packetization-mode=1;level-asymmetry-allowed=1;profile-level-id="
        >>> own, peer = (FormatParameters.read(Codec.H264, both + level) for level in ("42e01f", "42e00d"))
        >>> sends, receives = own.agreed(peer)
        >>> sends.level, receives.level, receives.mode, receives.sets.name  # of 13 and 31
        (26, 62, 1, 'IN_BAND')
        """
        told, options = (StreamNumbers(), StreamNumbers()), _options(any_order, webrtc, direction, multicast)
        with _both(self, other):
            call, to = library.h26x_sdp_agreed, (byref(told[0]), byref(told[1]))
            check(call(self._live(), other._live(), options, *to))
        return Agreed(*map(_stream_of, told))

    def accepts_declared(
        self, declared: FormatParameters, *, any_order: bool = False, webrtc: bool = False
    ) -> bool:
        """Whether this one of our formats receives a declared one as it is, of a description that is no offer, as of
        RTSP and SAP (RFC 6184, 8.2.3; RFC 7798, 7.2.3; RFC 9328, 7.3.3): what a declared format says is of its
        stream. False of two codecs. What may be said is as of `answer`.

        >>> camera = FormatParameters.read(Codec.H264, "profile-level-id=42e01f;packetization-mode=1")
        >>> ours = FormatParameters.read(Codec.H264, "profile-level-id=42e028;packetization-mode=1")
        >>> ours.accepts_declared(camera), camera.accepts_declared(ours)
        (True, False)
        """
        options = _options(any_order, webrtc)
        with _both(self, declared):
            call = library.h26x_sdp_accepts_declared
            code = call(declared._live(), self._live(), options)
        if code == SdpNoAnswer.code:
            return False
        check(code)
        return True

    def broken_rule(self, any_order: bool = False, webrtc: bool = False) -> Optional[BrokenRule]:
        """The first rule that these parameters break as a format of one's own, which then gives no answer;
        None where they break none. What may be said is as of `answer`.

        >>> own = FormatParameters.read(Codec.H264, "profile-level-id=42e01f;max-fs=99")
        >>> rule = own.broken_rule()
        >>> type(rule).__name__, rule.parameter
        ('SdpRuleBelowLevel', 'max-fs')
        """
        why = Refusal()
        with self._lock:
            code = library.h26x_sdp_broken_rule(self._live(), _options(any_order, webrtc), byref(why))
            if code == 0:
                return None
            rule = error_of(code, why.first)
            if not isinstance(rule, BrokenRule):
                raise rule
            if isinstance(rule, (SdpRuleAboveLevel, SdpRuleBelowLevel)):
                rule.parameter = self._written(library.h26x_sdp_name, why.first).decode()
        return rule

    def __copy__(self) -> NoReturn:
        """The library has no copy of it."""
        raise TypeError(f"a {type(self).__name__} has no copy")


@dataclass(frozen=True)
class RtpMap:
    """A payload type and its codec, with a clock rate of 90000: what stands behind `a=rtpmap:` (RFC 8866,
    6.6).

    >>> RtpMap.read("98 h265/90000")
    RtpMap(payload_type=98, codec=<Codec.H265: 265>)
    >>> str(RtpMap(96, Codec.H264))
    '96 H264/90000'
    """

    #: The payload type, from 0 to 127.
    payload_type: int
    #: The codec.
    codec: Codec

    def __post_init__(self) -> None:
        """Raises ValueError or UnknownCodec where one isn't such."""
        object.__setattr__(self, "payload_type", number("payload_type", self.payload_type, 127))
        object.__setattr__(self, "codec", codec_of(self.codec))

    @classmethod
    def read(cls, text: str) -> RtpMap:
        """That of a text, the codec's name without regard to case. Raises an RtpMapError; whoever goes through
        the lines of a session takes SdpEncodingName as a line of another codec."""
        data, payload_type, codec = _utf8(text), c_uint8(), c_uint32()
        check(library.h26x_rtpmap_read(data, len(data), byref(payload_type), byref(codec)))
        return cls(payload_type.value, Codec(codec.value))

    def __str__(self) -> str:
        """What stands behind `a=rtpmap:`. Raises OutOfMemory."""
        room, size = Room(), c_size_t()
        room.grow(len("127 H264/90000"))
        to = (room.address, room.size, byref(size))
        check(library.h26x_rtpmap_write(self.payload_type, self.codec, *to))
        return room.copy(0, size.value).decode()


def fits_single_units(payload: Buffer, limit: int) -> bool:
    """Whether a payload of H.264 can be sent where `packetization-mode` is 0, in packets of `limit` bytes:
    each of its units fits a packet of its own (RFC 6184, 5.6 and 6.2). There, give an SPS and a PPS to
    `packetize_unit`, since `packetize` puts both into one packet."""
    data = as_bytes(payload)
    return bool(library.h26x_fits_single_units(data, len(data), number("limit", limit)))


def _options(
    any_order: bool, webrtc: bool, direction: Direction = Direction.SENDRECV, multicast: bool = False
) -> int:
    """How an end answers, in bits."""
    return int(any_order) | int(webrtc) << 1 | direction << 2 | int(multicast) << 4


@contextmanager
def _both(one: FormatParameters, other: FormatParameters) -> Iterator[None]:
    """Has the locks of two."""
    with ExitStack() as locks:
        # In one order, so that two threads that have the same two don't wait for each other.
        for each in [one] if other is one else sorted((one, other), key=id):
            locks.enter_context(each._lock)
        yield


def _stream_of(told: StreamNumbers) -> Optional[AgreedStream]:
    """A stream of its numbers."""
    if not told.is_there:
        return None
    return AgreedStream(told.level, told.mode if told.has_mode else None, AgreedSets(told.sets))


def _point_of(told: PointNumbers) -> CapabilityPoint:
    """A capability point of its numbers."""
    names = ("tier_flag", "level_id", "max_lsr", "max_lps", "max_br")
    limits = (getattr(told, name) if getattr(told, f"has_{name}") else None for name in names)
    return CapabilityPoint(_TOOLS[told.tool], told.spatial_segmentation, *limits)


def _level_of(digits: str, sets: str = "") -> LevelSets:
    """A level of its two texts, each of which is read as what it is outside."""
    text = f"profile-level-id={digits};sprop-parameter-sets={sets}"
    with FormatParameters.read(Codec.H264, text) as level:
        return LevelSets(bytes.fromhex(digits), level.units("sprop-parameter-sets"))


def _read(codec: Codec, text: str) -> Handle:
    """The handle of what a text says."""
    data, made, why = _utf8(text), Handle(), Refusal()
    code = library.h26x_sdp_read(codec, data, len(data), byref(made), byref(why))
    if code != 0:
        raise error_of(code, why.first, why.second)
    return made


def _utf8(text: str) -> bytes:
    """The bytes of a text; TypeError where it is none."""
    return str.encode(text)
