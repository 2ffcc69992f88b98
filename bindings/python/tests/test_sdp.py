"""Format parameters of SDP and payload types.

Lines are of real ends: as Chromium, Firefox and Safari offer them, as FFmpeg 5.1.9, GStreamer 1.22.0 and Pion
3.1.56 wrote them in a run, and the examples of the RFCs. Answers and what streams say are by hand, from the
RFCs and from the sets (Rec. ITU-T H.264, 7.3.2.1.1; H.265, 7.3.3; H.266, 7.3.2.4 and 7.3.3.1).
"""

import base64
import copy
import re
from typing import Any, Callable, List, Optional, Type

import pytest
from digits import many, some
from h26x import (
    CapabilityPoint,
    Codec,
    Constraints,
    Error,
    FormatParameters,
    LevelSetsError,
    NotOfThisCodec,
    ParallelTool,
    RtpMap,
    RtpMapError,
    SdpClockRate,
    SdpConstraintsNotBase64,
    SdpEmptyUnit,
    SdpEncodingName,
    SdpLimits,
    SdpLongConstraints,
    SdpNoBraces,
    SdpNoLimit,
    SdpNoProfile,
    SdpNoSet,
    SdpNoTool,
    SdpNotANumber,
    SdpNotBase64,
    SdpNotHexadecimal,
    SdpNotTxMode,
    SdpOpenBrace,
    SdpOtherKind,
    SdpOtherType,
    SdpOutOfRange,
    SdpPayloadType,
    SdpSegmentation,
    SdpShortConstraints,
    SdpShortSet,
    SdpStartCode,
    SdpTwice,
    SdpUnknownName,
    UnknownCodec,
    fits_single_units,
    is_plain_unit,
)
from h26x import units as units_of
from rfc import stream

H264, H265, H266 = Codec.H264, Codec.H265, Codec.H266
read = FormatParameters.read

#: Lines as they come, and as they are written.
LINES = [
    # Chromium, Safari, Firefox.
    (
        H264,
        "level-asymmetry-allowed=1;packetization-mode=1;profile-level-id=42001f",
        "profile-level-id=42001f;level-asymmetry-allowed=1;packetization-mode=1",
    ),
    (
        H264,
        "level-asymmetry-allowed=1;packetization-mode=0;profile-level-id=42e01f",
        "profile-level-id=42e01f;level-asymmetry-allowed=1;packetization-mode=0",
    ),
    (
        H264,
        "level-asymmetry-allowed=1;packetization-mode=1;profile-level-id=640c1f",
        "profile-level-id=640c1f;level-asymmetry-allowed=1;packetization-mode=1",
    ),
    (
        H264,
        "profile-level-id=42e01f;level-asymmetry-allowed=1",
        "profile-level-id=42e01f;level-asymmetry-allowed=1",
    ),
    (
        H265,
        "level-id=180;profile-id=1;tier-flag=0;tx-mode=SRST",
        "profile-id=1;tier-flag=0;level-id=180;tx-mode=SRST",
    ),
    (H265, "level-id=93;tx-mode=SRST", "level-id=93;tx-mode=SRST"),
    # FFmpeg, GStreamer.
    (
        H264,
        "packetization-mode=1; sprop-parameter-sets=Z0LACtkJbARAAAADAEAAAAyDxImS,aMuBEsg=; "
        "profile-level-id=42C00A",
        "profile-level-id=42C00A;sprop-parameter-sets=Z0LACtkJbARAAAADAEAAAAyDxImS,aMuBEsg=;"
        "packetization-mode=1",
    ),
    (
        H264,
        "packetization-mode=1;sprop-parameter-sets=Z01AFeygoP2AtQYGBqUAAAMAAQAAAwA8jxYtlg==,aOvssg==;"
        "profile-level-id=4d4015;level-asymmetry-allowed=1",
        "profile-level-id=4d4015;sprop-parameter-sets=Z01AFeygoP2AtQYGBqUAAAMAAQAAAwA8jxYtlg==,aOvssg==;"
        "level-asymmetry-allowed=1;packetization-mode=1",
    ),
    (
        H265,
        "sprop-vps=QAEMAf//AWAAAAMAkAAAAwAAAwA8lZgJ; "
        "sprop-sps=QgEBAWAAAAMAkAAAAwAAAwA8oAoIDxZZWaSTK8BaAgAAAwACAAADADIQ; sprop-pps=RAHBcrRiQA==",
        "sprop-vps=QAEMAf//AWAAAAMAkAAAAwAAAwA8lZgJ;"
        "sprop-sps=QgEBAWAAAAMAkAAAAwAAAwA8oAoIDxZZWaSTK8BaAgAAAwACAAADADIQ;sprop-pps=RAHBcrRiQA==",
    ),
    # RFC 6184, 8.2.1; RFC 7798, 7.1; RFC 9328, 7.2.
    (
        H264,
        "profile-level-id=42A01E;\r\n packetization-mode=1;\r\n "
        "sprop-parameter-sets=Z0IACpZTBYmI,aMljiA==",
        "profile-level-id=42A01E;sprop-parameter-sets=Z0IACpZTBYmI,aMljiA==;packetization-mode=1",
    ),
    (
        H265,
        "dec-parallel-cap={w:8;level-id=93,t:4;level-id=90}; level-id=120",
        "level-id=120;dec-parallel-cap={w:8;level-id=93,t:4;level-id=90}",
    ),
    (
        H266,
        "profile-id=17; level-id=83; tier-flag=1; sprop-dci=AGk=",
        "profile-id=17;tier-flag=1;level-id=83;sprop-dci=AGk=",
    ),
    # Nothing, blanks, names in capitals, and what no RFC has.
    (H264, "", ""),
    (H266, " ; ;", ""),
    (H265, "X=1 ;; Level-ID = 93; y ;x=2", "level-id=93;X=1;y=;x=2"),
    (H264, "x=\u00fcber\0 \U0001f39e", "x=\u00fcber\0 \U0001f39e"),
]


@pytest.mark.parametrize("codec, line, wanted", LINES)
def test_lines(codec: Codec, line: str, wanted: str) -> None:
    for text in (line, wanted):
        with read(codec, text) as it:
            assert it.codec is codec and str(it) == wanted


@pytest.mark.parametrize(
    "codec, a, b, is_equal",
    [
        (
            H264,
            "level-asymmetry-allowed=1;packetization-mode=1;profile-level-id=42e01f",
            "packetization-mode=1; profile-level-id=42e01f;;Level-Asymmetry-Allowed=1",
            True,
        ),
        (H264, "profile-level-id=42e01f", "profile-level-id=42E01F", False),
        (H264, "", "packetization-mode=0", False),
        (H265, "x=1;level-id=93;y=2", "level-id=93;x=1;y=2", True),
        (H265, "x=1;y=2", "x=1;level-id=93;y=2", False),
        (H266, "x=1;y=2", "y=2;x=1", False),
    ],
)
def test_what_is_equal(codec: Codec, a: str, b: str, is_equal: bool) -> None:
    one, other = read(codec, a), read(codec, b)
    assert (one == other) is is_equal and (one != other) is not is_equal
    assert len({one, other, read(codec, a)}) == 2 - is_equal
    assert one != FormatParameters(H265 if codec is H266 else H266) and one != a
    other.close()
    assert one != other and other == other


def test_without_parameters(codec: Codec) -> None:
    it = FormatParameters(codec)
    assert (it.codec, str(it), it.others()) == (codec, "", [])


@pytest.mark.parametrize(
    "codec, text, fault, place",
    [
        (H265, "level-id=93;dec-parallel-cap={w:8", SdpOpenBrace, 0),
        (H264, "x=1;;packetization-mode=+1", SdpNotANumber, 1),
        (H264, "packetization-mode=", SdpNotANumber, 0),
        (H264, "packetization-mode=3", SdpOutOfRange, 0),
        (H265, "max-lsr=18446744073709551616", SdpOutOfRange, 0),
        (H266, "tier-flag=1;profile-id=128;level-id=x", SdpOutOfRange, 1),
        (H264, "profile-level-id=42e01", SdpNotHexadecimal, 0),
        (H264, "a;b;profile-level-id=42e01g", SdpNotHexadecimal, 2),
        (H265, "tx-mode=srmt", SdpNotTxMode, 0),
        (H265, "level-id=93;tx-mode=SRST;LEVEL-ID=93", SdpTwice, 2),
    ],
)
def test_faults(codec: Codec, text: str, fault: Type[Any], place: int) -> None:
    with pytest.raises(fault) as told:
        read(codec, text)
    assert type(told.value) is fault and told.value.place == place


def test_unknown_codecs() -> None:
    for number in (0, 263, 267, -1, 2**32 + 264):
        calls: List[Callable[[], Any]] = [
            lambda: FormatParameters(number),
            lambda: read(number, ""),
            lambda: FormatParameters.of_payload(number, b""),
            lambda: RtpMap(96, number),  # type: ignore[arg-type]
        ]
        for call in calls:
            with pytest.raises(UnknownCodec):
                call()


def test_values() -> None:
    it = read(H264, "profile-level-id=42E01f;packetization-mode=1;max-mbps=18446744073709551615")
    assert it.value("Profile-Level-ID") == "42E01f"
    assert it.value("packetization-mode", or_default=True) == "1"
    assert it.value("sar-understood") is None
    assert it.value("sar-understood", or_default=True) == "13"
    assert it.value("max-fs", or_default=True) is None
    assert it.number("PACKETIZATION-MODE") == 1
    assert it.number("max-mbps") == 2**64 - 1
    assert it.number("sar-understood") is None
    assert it.number("sar-understood", or_default=True) == 13
    assert it.number("max-fs", or_default=True) is None
    it = read(H265, "sprop-spatial-segmentation-idc=fFf")
    assert it.value("profile-id", or_default=True) == "1"
    assert it.value("tx-mode", or_default=True) == "SRST"
    assert it.value("interop-constraints", or_default=True) == "B00000000000"
    assert it.number("sprop-spatial-segmentation-idc") == 4095
    assert it.number("level-id", or_default=True) == 93
    assert it.number("depack-buf-cap", or_default=True) == 2**32 - 1
    it = read(H266, "")
    assert it.value("interop-constraints", or_default=True) == "gA=="
    assert it.number("level-id", or_default=True) == 51
    assert it.number("sprop-ols-id", or_default=True) is None


#: The names of each RFC.
NAMES = {
    H264: """profile-level-id max-recv-level max-mbps max-smbps max-fs max-cpb max-dpb max-br
        redundant-pic-cap sprop-parameter-sets sprop-level-parameter-sets use-level-src-parameter-sets
        in-band-parameter-sets level-asymmetry-allowed packetization-mode sprop-interleaving-depth
        sprop-deint-buf-req deint-buf-cap sprop-init-buf-time sprop-max-don-diff max-rcmd-nalu-size
        sar-understood sar-supported""",
    H265: """profile-space profile-id tier-flag level-id interop-constraints
        profile-compatibility-indicator sprop-sub-layer-id recv-sub-layer-id max-recv-level-id tx-mode
        sprop-vps sprop-sps sprop-pps sprop-sei max-lsr max-lps max-cpb max-dpb max-br max-tr max-tc max-fps
        sprop-max-don-diff sprop-depack-buf-nalus sprop-depack-buf-bytes depack-buf-cap
        sprop-segmentation-id sprop-spatial-segmentation-idc dec-parallel-cap include-dph""",
    H266: """profile-id tier-flag sub-profile-id interop-constraints level-id sprop-sublayer-id
        sprop-ols-id recv-sublayer-id recv-ols-id max-recv-level-id sprop-dci sprop-vps sprop-sps sprop-pps
        sprop-sei max-lsr max-fps sprop-max-don-diff sprop-depack-buf-bytes depack-buf-cap""",
}


def test_names(codec: Codec) -> None:
    it, own = read(codec, ""), set(NAMES[codec].split())
    for name in set(" ".join(NAMES.values()).split()):
        if name in own:
            assert it.value(name) is None
        else:
            with pytest.raises(SdpUnknownName):
                it.value(name)
    calls: List[Callable[[str], Any]] = [it.value, it.number, it.units]
    for call in calls:
        for unknown in ("", "profile", "profile-id\0", " tier-flag", "\u00fcber"):
            with pytest.raises(SdpUnknownName):
                call(unknown)


@pytest.mark.parametrize(
    "codec, name",
    [(H264, "profile-level-id"), (H265, "include-dph"), (H265, "tx-mode"), (H266, "sprop-vps")],
)
def test_what_is_no_number(codec: Codec, name: str) -> None:
    with pytest.raises(SdpOtherKind):
        read(codec, "").number(name, or_default=True)


@pytest.mark.parametrize(
    "codec, line, name, wanted",
    [
        (
            H264,
            "sprop-parameter-sets=Z0IACpZTBYmI,aMljiA==",
            "Sprop-Parameter-Sets",
            "6742000a9653058988|68c96388",
        ),
        (H265, "sprop-pps=RAHBcrRiQA==;sprop-sei=TgEF", "sprop-pps", "4401c172b46240"),
        (H265, "sprop-pps=RAHBcrRiQA==;sprop-sei=TgEF", "sprop-sei", "4e0105"),
        (H266, "sprop-dci=AGk=", "sprop-dci", "0069"),
        (H264, "", "sprop-parameter-sets", ""),
    ],
)
def test_units(codec: Codec, line: str, name: str, wanted: str) -> None:
    assert read(codec, line).units(name) == many(wanted)


def test_units_of_any_length() -> None:
    """Each is longer than the memory that the calls before needed."""
    units = [b"\x67" + bytes([byte]) * 3**byte for byte in range(1, 10)]
    text = ",".join(base64.b64encode(unit).decode() for unit in units)
    it = read(H264, "sprop-parameter-sets=" + text)
    assert it.units("sprop-parameter-sets") == units
    assert it.value("sprop-parameter-sets") == text
    assert str(it) == "sprop-parameter-sets=" + text


def test_sets_of_levels() -> None:
    text = "sprop-level-parameter-sets=42E00B:Z0LgCw==,aMs=:4de00b:aMs="
    first, second = read(H264, text).level_sets()
    assert first == (some("42e00b"), many("6742e00b|68cb"))
    assert (second.profile_level_id, second.sets) == (some("4de00b"), many("68cb"))
    assert read(H264, "").level_sets() == []


@pytest.mark.parametrize(
    "value, level, fault",
    [
        ("", 0, SdpNotHexadecimal),
        ("42e00b:Zw==:42e00c", 1, SdpEmptyUnit),
        ("42e0:Zw==", 0, SdpNotHexadecimal),
        ("42e00b:Zw==:42e00c:", 1, SdpEmptyUnit),
        ("42e00b:Zw==,Zw", 0, SdpNotBase64),
        ("42e00b:aMs=:42e00c:aMs=,ZQ==", 1, SdpOtherType),
    ],
)
def test_what_is_no_level(value: str, level: int, fault: Type[Error]) -> None:
    with pytest.raises(LevelSetsError) as told:
        read(H264, "sprop-level-parameter-sets=" + value).level_sets()
    assert told.value.place == level and type(told.value.__cause__) is fault


@pytest.mark.parametrize(
    "codec, text, fault, place",
    [
        (H264, "sprop-parameter-sets=Z0I=,Z0I", SdpNotBase64, 1),
        (H264, "sprop-parameter-sets=Z0I=,,Z0I=", SdpEmptyUnit, 1),
        (H264, "sprop-parameter-sets=Z0I=,ZYg=", SdpOtherType, 1),
        (H264, "sprop-parameter-sets=ZwAAAWU=", SdpStartCode, 0),
        (H265, "sprop-vps=QgEB", SdpOtherType, 0),
    ],
)
def test_what_is_no_unit(codec: Codec, text: str, fault: Type[Any], place: int) -> None:
    it = read(codec, text)
    with pytest.raises(fault) as told:
        it.units(text.split("=")[0])
    assert type(told.value) is fault and told.value.place == place
    assert str(it) == text
    with pytest.raises(SdpOtherKind):
        it.units("max-fps" if codec is H265 else "profile-level-id")


def test_others() -> None:
    it = read(H265, "x=12;level-id=93; Name = a=b ;y;x=" + "long" * 99)
    wanted = [("x", "12"), ("Name", "a=b"), ("y", ""), ("x", "long" * 99)]
    assert it.others() == wanted == it.others()
    wanted = [("n" * 3**n, "v" * 3 ** (9 - n)) for n in range(10)]
    assert read(H264, ";".join("=".join(one) for one in wanted)).others() == wanted


CHROMIUM = "level-asymmetry-allowed=1;packetization-mode=1;profile-level-id=42e01f"
SAFARI = "level-asymmetry-allowed=1;packetization-mode=1;profile-level-id=640c1f"
SAFARI_H265 = "level-id=180;profile-id=1;tier-flag=0;tx-mode=SRST"


@pytest.mark.parametrize(
    "codec, offered, ours, wanted",
    [
        # Our level, where both ends allow each direction its own; else the lower one.
        (
            H264,
            CHROMIUM,
            "profile-level-id=42e034;level-asymmetry-allowed=1;packetization-mode=1",
            "profile-level-id=42e034;level-asymmetry-allowed=1;packetization-mode=1",
        ),
        (
            H264,
            SAFARI,
            "profile-level-id=640c15;packetization-mode=1",
            "profile-level-id=640c15;packetization-mode=1",
        ),
        (
            H264,
            SAFARI,
            "profile-level-id=640c34;packetization-mode=1",
            "profile-level-id=640c1f;packetization-mode=1",
        ),
        # A mode that isn't given is 0; Constrained High is not High.
        (H264, CHROMIUM, "profile-level-id=42e01f", None),
        (H264, SAFARI, "profile-level-id=64001f;packetization-mode=1", None),
        # One profile by other bytes; what is ours alone is said.
        (
            H264,
            "profile-level-id=42e01f;level-asymmetry-allowed=1;z=1",
            "profile-level-id=4D801F;x=1",
            "profile-level-id=42e01f;x=1",
        ),
        (H265, SAFARI_H265, "level-id=93", "profile-id=1;tier-flag=0;level-id=93;tx-mode=SRST"),
        (H265, SAFARI_H265, "level-id=186", "profile-id=1;tier-flag=0;level-id=180;tx-mode=SRST"),
        (H265, SAFARI_H265, "tier-flag=1;level-id=180", None),
        (H265, SAFARI_H265, "tx-mode=MRST", None),
        (
            H266,
            "profile-id=1;level-id=83;sprop-max-don-diff=0",
            "level-id=51",
            "profile-id=1;level-id=51",
        ),
        (H266, "profile-id=17", "profile-id=17;level-id=51", "profile-id=17"),
        (H266, "profile-id=17", "profile-id=33", None),
    ],
)
def test_answers(codec: Codec, offered: str, ours: str, wanted: Optional[str]) -> None:
    own = read(codec, ours)
    answer = read(codec, offered).answer(own)
    if wanted is None:
        assert answer is None
        return
    assert answer is not None and answer.codec is codec and str(answer) == wanted
    # An answer to it is itself, and no part of what it was made of.
    again = answer.answer(own)
    own.close()
    assert str(again) == str(answer) == wanted


def test_an_answer_by_several_of_ours() -> None:
    offered = read(H264, CHROMIUM)
    ours = [read(H264, f"profile-level-id={id};packetization-mode=1") for id in ("64001f", "42e015")]
    assert str(offered.answer(*ours)) == "profile-level-id=42e015;packetization-mode=1"
    first = read(H264, "profile-level-id=42e00a;packetization-mode=1")
    assert str(offered.answer(first, *ours)) == "profile-level-id=42e00a;packetization-mode=1"
    assert offered.answer(ours[0]) is None and offered.answer() is None
    # Two codecs have nothing in common.
    assert offered.answer(FormatParameters(H265), FormatParameters(H266)) is None
    # One end may be both.
    itself = offered.answer(offered)
    assert itself is not None and itself is not offered
    assert str(itself) == "profile-level-id=42e01f;level-asymmetry-allowed=1;packetization-mode=1"
    ours[1].close()
    with pytest.raises(ValueError, match="closed"):
        offered.answer(*ours)


#: The video of an offer of Pion.
OFFER = """m=video 9 UDP/TLS/RTP/SAVPF 96 97 102 121 127 120 125 107 108 109 123 118 116
a=rtpmap:96 VP8/90000
a=rtpmap:97 rtx/90000
a=fmtp:97 apt=96
a=rtpmap:102 H264/90000
a=fmtp:102 level-asymmetry-allowed=1;packetization-mode=1;profile-level-id=42001f
a=rtpmap:121 rtx/90000
a=fmtp:121 apt=102
a=rtpmap:127 H264/90000
a=fmtp:127 level-asymmetry-allowed=1;packetization-mode=0;profile-level-id=42001f
a=rtpmap:125 H264/90000
a=fmtp:125 level-asymmetry-allowed=1;packetization-mode=1;profile-level-id=42e01f
a=rtpmap:108 H264/90000
a=fmtp:108 level-asymmetry-allowed=1;packetization-mode=0;profile-level-id=42e01f
a=rtpmap:123 H264/90000
a=fmtp:123 level-asymmetry-allowed=1;packetization-mode=1;profile-level-id=640032
a=rtpmap:116 ulpfec/90000"""


def test_an_offer() -> None:
    formats = {}
    lines = dict(re.findall(r"^a=fmtp:(\d+) (.*)$", OFFER, re.M))
    for text in re.findall(r"^a=rtpmap:(.*)$", OFFER, re.M):
        try:
            map = RtpMap.read(text)
        except SdpEncodingName:
            continue
        assert map.codec is H264
        formats[map.payload_type] = read(map.codec, lines[str(map.payload_type)])
    found = [
        (type, it.number("packetization-mode"), it.value("profile-level-id"))
        for type, it in formats.items()
    ]
    assert found == [
        (102, 1, "42001f"),
        (127, 0, "42001f"),
        (125, 1, "42e01f"),
        (108, 0, "42e01f"),
        (123, 1, "640032"),
    ]
    ours = read(H264, "profile-level-id=42e034;level-asymmetry-allowed=1;packetization-mode=1")
    answers = {type: it.answer(ours) for type, it in formats.items()}
    assert [type for type, it in answers.items() if it is not None] == [125]


@pytest.mark.parametrize(
    "codec, payload, wanted",
    [
        (
            H264,
            "00000001 6742c00ad9096c044000000300400000 0c83c48992 000001 68cb8112c8 000001 658884 "
            "000001 67010203",
            "profile-level-id=42c00a;sprop-parameter-sets=Z0LACtkJbARAAAADAEAAAAyDxImS,aMuBEsg=;"
            "packetization-mode=1",
        ),
        (
            H265,
            "000001 40010c01ffff016000000300900000030000 03003c959809 000001 4401c172b46240",
            "profile-space=0;profile-id=1;tier-flag=0;level-id=60;interop-constraints=900000000000;"
            "profile-compatibility-indicator=60000000;sprop-vps=QAEMAf//AWAAAAMAkAAAAwAAAwA8lZgJ;"
            "sprop-pps=RAHBcrRiQA==",
        ),
        (
            H266,
            "000001 0079000b02338080 000001 00810080",
            "profile-id=1;tier-flag=0;interop-constraints=gA==;level-id=51;sprop-sps=AHkACwIzgIA=;"
            "sprop-pps=AIEAgA==",
        ),
        (
            H266,
            "0079000d0233a08000000300000300000300017eff",
            "profile-id=1;tier-flag=0;interop-constraints=oIAAAAAAAAAAAX4=;level-id=51;"
            "sprop-sps=AHkADQIzoIAAAAMAAAMAAAMAAX7/",
        ),
    ],
)
def test_what_a_stream_says(codec: Codec, payload: str, wanted: str) -> None:
    data = some(payload)
    for form in (data, bytearray(data), memoryview(data)):
        it = FormatParameters.of_payload(codec, form)
        assert it.codec is codec and str(it) == wanted


@pytest.mark.parametrize(
    "codec, payload, fault",
    [
        (H264, "", SdpNoSet),
        (H264, "000001 658884 000001 6742c01f", SdpNoSet),
        (H264, "6742c0", SdpShortSet),
        (H265, "000001 4401c172b46240", SdpNoSet),
        (H266, "0079000b0233", SdpShortSet),
        (H266, "0079000a023380", SdpNoProfile),
        (H266, "0079000b0233a0", SdpShortSet),
    ],
)
def test_what_a_stream_does_not_say(codec: Codec, payload: str, fault: Type[Error]) -> None:
    with pytest.raises(fault) as told:
        FormatParameters.of_payload(codec, some(payload))
    assert type(told.value) is fault


@pytest.mark.parametrize(
    "codec, name", [(H264, "sprop-parameter-sets"), (H265, "sprop-sps"), (H266, "sprop-sps")]
)
def test_a_stream_s_sets(codec: Codec, name: str) -> None:
    data = stream(codec)
    sets = FormatParameters.of_payload(codec, data).units(name)
    assert sets and all(is_plain_unit(codec, one) for one in sets)
    assert set(sets) <= set(units_of(codec, data))


@pytest.mark.parametrize("codec", [H265, H266])
@pytest.mark.parametrize(
    "text, wanted", [("", 0), ("sprop-max-don-diff=2", 2), ("sprop-max-don-diff=32767", 32767)]
)
def test_max_don_diff(codec: Codec, text: str, wanted: int) -> None:
    assert read(codec, text).max_don_diff == wanted


def test_max_don_diff_of_h264() -> None:
    with pytest.raises(NotOfThisCodec):
        read(H264, "sprop-max-don-diff=2").max_don_diff


@pytest.mark.parametrize(
    "codec, text, wanted",
    [
        (H265, "", Constraints(0xB00000000000, some("b00000000000"), True, False, False)),
        (H265, "A0000000f001", Constraints(0xA0000000F001, some("a0000000f001"), False, False, False)),
        (H266, "", Constraints(0, some("80"), True, False, False)),
        (H266, "QA==", Constraints(0, some("40"), False, True, False)),
        (H266, "oIAAAAAAAAAAAX4=", Constraints(0, some("a08000000000000000017e"), True, False, True)),
    ],
)
def test_constraints(codec: Codec, text: str, wanted: Constraints) -> None:
    it = read(codec, f"interop-constraints={text}" if text else "")
    assert it.interop_constraints() == wanted


def test_the_most_constraints() -> None:
    # gci_num_additional_bits is 255, and 89 bits are there beside.
    data = some("20 00000000 00000000 3fc0") + bytes(32)
    it = read(H266, "interop-constraints=" + base64.b64encode(data).decode())
    assert it.interop_constraints() == Constraints(0, data, False, False, True)


@pytest.mark.parametrize(
    "codec, text, fault",
    [
        (H264, "gA==", NotOfThisCodec),
        (H266, "gA", SdpConstraintsNotBase64),
        (H266, "", SdpShortConstraints),
        (H266, "oA==", SdpShortConstraints),
        (H266, "gAA=", SdpLongConstraints),
    ],
)
def test_what_is_no_constraints(codec: Codec, text: str, fault: Type[Error]) -> None:
    with pytest.raises(fault) as told:
        read(codec, "interop-constraints=" + text).interop_constraints()
    assert type(told.value) is fault


W, T = ParallelTool.WAVEFRONTS, ParallelTool.NO_WAVEFRONTS


@pytest.mark.parametrize(
    "text, given, or_default",
    [
        ("level-id=93", [], []),
        (
            "dec-parallel-cap={w:8;level-id=93,t:4;level-id=90}; level-id=120",
            [CapabilityPoint(W, 8, level_id=93), CapabilityPoint(T, 4, level_id=90)],
            [CapabilityPoint(W, 8, 0, 93), CapabilityPoint(T, 4, 0, 90)],
        ),
        (
            "max-recv-level-id=150;level-id=120;max-br=8;dec-parallel-cap={t:4095;tier-flag=1;max-lps=0}",
            [CapabilityPoint(T, 4095, tier_flag=1, max_lps=0)],
            [CapabilityPoint(T, 4095, 1, 150, None, 0, 8)],
        ),
        (
            "tier-flag=1;max-lsr=9;max-lps=7;dec-parallel-cap={W:1;max-lsr=18446744073709551615}",
            [CapabilityPoint(W, 1, max_lsr=2**64 - 1)],
            [CapabilityPoint(W, 1, 1, 93, 2**64 - 1, 7)],
        ),
        # More than there is room for at first.
        (
            "dec-parallel-cap={w:1;max-br=1" + ",t:2;max-br=3" * 99 + "}",
            [CapabilityPoint(W, 1, max_br=1)] + [CapabilityPoint(T, 2, max_br=3)] * 99,
            [CapabilityPoint(W, 1, 0, 93, max_br=1)] + [CapabilityPoint(T, 2, 0, 93, max_br=3)] * 99,
        ),
    ],
)
def test_capability_points(
    text: str, given: List[CapabilityPoint], or_default: List[CapabilityPoint]
) -> None:
    it = read(H265, text)
    assert it.capability_points() == given and it.capability_points(True) == or_default


@pytest.mark.parametrize(
    "text, fault, place, of",
    [
        ("w:8", SdpNoBraces, 0, None),
        ("{}", SdpNoTool, 0, None),
        ("{w:8;max-br=1,x:8;max-br=1}", SdpNoTool, 1, None),
        ("{w:0;max-br=1}", SdpSegmentation, 0, SdpOutOfRange),
        ("{w:8;max-br=1,t:x;max-br=1}", SdpSegmentation, 1, SdpNotANumber),
        ("{w:8;level-id=256}", SdpLimits, 0, SdpOutOfRange),
        ("{w:8;max-br=1,t:8;max-br=1;max-br=1}", SdpLimits, 1, SdpTwice),
        ("{w:8;x={1,2}}", SdpLimits, 0, SdpOpenBrace),
        ("{w:8}", SdpNoLimit, 0, None),
    ],
)
def test_what_is_no_point(
    text: str, fault: Type[Any], place: int, of: Optional[Type[Error]]
) -> None:
    with pytest.raises(fault) as told:
        read(H265, "dec-parallel-cap=" + text).capability_points()
    assert type(told.value) is fault and told.value.place == place
    assert of is None or told.value.fault is of


@pytest.mark.parametrize("codec", [H264, H266])
def test_points_of_other_codecs(codec: Codec) -> None:
    with pytest.raises(NotOfThisCodec):
        read(codec, "dec-parallel-cap={w:8;max-br=1}").capability_points()


def test_single_units() -> None:
    data = some("000001 6742c01f 000001 68ce 000001 6588842103")
    for form in (data, bytearray(data), memoryview(data)):
        assert fits_single_units(form, 5) and not fits_single_units(form, 4)
    assert fits_single_units(b"", 0)
    for limit in (-1, 2**64):
        with pytest.raises(ValueError):
            fits_single_units(data, limit)


@pytest.mark.parametrize(
    "text, wanted",
    [
        ("96 H264/90000", RtpMap(96, H264)),
        (" 127 h265/90000\r\n", RtpMap(127, H265)),
        ("0 H266/90000", RtpMap(0, H266)),
    ],
)
def test_payload_types(text: str, wanted: RtpMap) -> None:
    found = RtpMap.read(text)
    assert found == wanted and found.codec is wanted.codec
    assert str(found) == text.strip().upper()
    assert len({found, wanted}) == 1


@pytest.mark.parametrize(
    "text, fault",
    [
        ("128 H264/90000", SdpPayloadType),
        ("", SdpPayloadType),
        ("x H264/90000", SdpPayloadType),
        ("96 VP8/90000", SdpEncodingName),
        ("96 H264", SdpClockRate),
        ("96 H264/48000", SdpClockRate),
    ],
)
def test_what_is_no_payload_type(text: str, fault: Type[RtpMapError]) -> None:
    with pytest.raises(fault) as told:
        RtpMap.read(text)
    assert type(told.value) is fault


def test_payload_types_out_of_range() -> None:
    for number in (-1, 128, 256 + 96):
        with pytest.raises(ValueError, match="payload_type"):
            RtpMap(number, H264)
    assert RtpMap(96, 265).codec is H265  # type: ignore[arg-type]


@pytest.mark.parametrize("wrong", [b"x=1", None, 5, ["x"]])
def test_what_is_no_text(wrong: Any) -> None:
    it = FormatParameters(H264)
    calls: List[Callable[[Any], Any]] = [
        lambda text: read(H264, text),
        RtpMap.read,
        it.value,
        it.number,
        it.units,
    ]
    for call in calls:
        with pytest.raises(TypeError):
            call(wrong)
    with pytest.raises(TypeError):
        FormatParameters.of_payload(H264, "6742c01f")  # type: ignore[arg-type]
    with pytest.raises(TypeError):
        fits_single_units("6742c01f", 5)  # type: ignore[arg-type]


def test_a_text_that_no_bytes_are_of() -> None:
    with pytest.raises(ValueError):
        read(H264, "x=\ud800")


def test_there_is_no_copy() -> None:
    calls: List[Callable[[Any], Any]] = [copy.copy, copy.deepcopy]
    for call in calls:
        with pytest.raises(TypeError):
            call(FormatParameters(H264))
