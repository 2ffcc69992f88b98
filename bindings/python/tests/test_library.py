"""The library: that its calls are declared as the header has them, and how it is found."""

import os
import re
import subprocess
import sys
from ctypes import (
    c_bool,
    c_char_p,
    c_int32,
    c_size_t,
    c_uint8,
    c_uint16,
    c_uint32,
    c_uint64,
    c_void_p,
)
from pathlib import Path
from typing import Any, Dict, List

import h26x
import pytest
from h26x import _library

HEADER = Path(__file__).parents[2] / "include" / "h26x.h"

#: What each type of the header is here. Bytes that are read are a `bytes`; those written an address.
TYPES: Dict[str, Any] = {
    "void": None,
    "bool": c_bool,
    "uint8_t": c_uint8,
    "uint16_t": c_uint16,
    "uint32_t": c_uint32,
    "uint64_t": c_uint64,
    "int32_t": c_int32,
    "size_t": c_size_t,
    "const char *": c_char_p,
    "const uint8_t *": c_char_p,
    "const uint16_t *": c_char_p,
    "const size_t *": c_char_p,
    "const h26x_rtp_payload *": c_char_p,
    "uint8_t *": _library._BYTE,
    "uint16_t *": _library._SHORT,
    "uint32_t *": _library._WORD,
    "uint64_t *": _library._LONG,
    "size_t *": _library._SIZE,
    "h26x_refusal *": _library._WHY,
    "h26x_h265_packet *": _library._SHOWN,
    "const h26x_access_units_config *": _library._CONFIG,
    "const h26x_nack_times *": _library._TIMES,
    "h26x_access_unit *": _library._UNIT,
    "h26x_access_units_counts *": _library._COUNTS,
    "h26x_constraints *": _library._SAID,
    "h26x_sdp_stream *": _library._AGREED,
    "h26x_rtx_format *": _library._RTX,
    "const h26x_rtx_format *": _library._RTX,
    "h26x_refusal": _library.Refusal,
    "h26x_rtp_header": _library.RtpFields,
    "const h26x_rtp_header *": _library._FIELDS,
    "h26x_rtp_packet *": _library._PLACES,
    "h26x_rtp_element *": _library._ELEMENT,
    "const h26x_report *": _library._REPORT,
    "h26x_report *": _library._REPORT,
    "h26x_rtp_statistics *": _library._STATISTICS,
    "const h26x_rtp_payload_types *": _library._TYPES,
    "const h26x_rtp_sources *": _library._SOURCES,
    "h26x_rtp_sources *": _library._SOURCES,
    "h26x_rtp_told *": _library._DATAGRAM,
    "const h26x_rtp_streams *": _library._STREAMS,
    "h26x_rtp_streams *": _library._STREAMS,
    "h26x_rtp_sent *": _library._SENT,
    "h26x_so_far *": _library._SO_FAR,
}

#: A pointer to one number, or to as many as there is room for: told apart by the name.
ROOMS = dict.fromkeys(
    ("to", "ends", "numbers", "packets", "points", "name_to", "value_to", "told", "blocks"), c_void_p
)

#: The structs of the header that are more than a handle.
STRUCTS: Dict[str, Any] = {
    "h26x_refusal": _library.Refusal,
    "h26x_h265_packet": _library.ShownPacket,
    "h26x_access_units_config": _library.UnitsConfig,
    "h26x_nack_times": _library.NackTimesGiven,
    "h26x_access_unit": _library.UnitTold,
    "h26x_access_units_counts": _library.UnitsCounts,
    "h26x_constraints": _library.ConstraintsSaid,
    "h26x_sdp_stream": _library.StreamNumbers,
    "h26x_rtx_format": _library.RtxNumbers,
    "h26x_capability_point": _library.PointNumbers,
    "h26x_rtp_payload": _library.RtpPayload,
    "h26x_push_told": _library.PushTold,
    "h26x_receive_told": _library.ReceiveTold,
    "h26x_rtp_header": _library.RtpFields,
    "h26x_rtp_packet": _library.RtpPlaces,
    "h26x_rtp_element": _library.ElementPlace,
    "h26x_red_block": _library.BlockPlace,
    "h26x_report": _library.ReportGiven,
    "h26x_rtp_statistics": _library.StatisticsKept,
    "h26x_rtp_payload_types": _library.PayloadTypesGiven,
    "h26x_rtp_sources": _library.SourcesGiven,
    "h26x_rtp_told": _library.DatagramTold,
    "h26x_so_far": _library.SoFarTold,
    "h26x_rtp_streams": _library.StreamsGiven,
    "h26x_rtp_sent": _library.SentTold,
}

HANDLES = (
    "h26x_packetizer",
    "h26x_depacketizer",
    "h26x_receiver",
    "h26x_access_units",
    "h26x_rtp_receiver",
    "h26x_rtp_sender",
    "h26x_sdp",
)


def ctype(declared: str, name: str) -> Any:
    """The type of an argument."""
    if re.sub("^const | \\*$", "", declared) in HANDLES:
        return _library._HANDLE if declared.endswith("*") else _library.Handle
    several = ("uint8_t *", "uint16_t *", "size_t *", "h26x_capability_point *")
    told = ("h26x_push_told *", "h26x_receive_told *", "h26x_red_block *")
    if declared in several + told and name in ROOMS:
        return ROOMS[name]
    return TYPES[declared]


def arguments(text: str) -> List[Any]:
    """The types of a list of arguments."""
    found = []
    for one in "" if text == "void" else text.split(","):
        declared = re.fullmatch(r"\s*(.*?)(\w+)\s*", one, re.S)
        assert declared is not None
        found.append(ctype(declared[1].strip(), declared[2]))
    return found


def test_calls_are_declared_as_in_the_header() -> None:
    if not HEADER.is_file():
        pytest.skip("the header lies beside the package in its repository")
    text = re.sub(r"/\*.*?\*/", "", HEADER.read_text(), flags=re.S)
    pattern = r"H26X_API (const char \*|\w+ )h26x_(\w+)\((.*?)\)(\s+H26X_MUST_USE)?;"
    wanted = {}
    for answer, name, listed, _ in re.findall(pattern, text, re.S):
        wanted[name] = (TYPES[answer.strip()], arguments(re.sub(r"\s+", " ", listed)))
    assert len(wanted) == text.count("H26X_API ") - text.count("#define H26X_API ")
    assert wanted == _library.CALLS
    for name, (restype, argtypes) in wanted.items():
        call = getattr(_library.library, "h26x_" + name)
        assert call.restype is restype and call.argtypes == argtypes


def test_structs_are_declared_as_in_the_header() -> None:
    if not HEADER.is_file():
        pytest.skip("the header lies beside the package in its repository")
    text = re.sub(r"/\*.*?\*/", "", HEADER.read_text(), flags=re.S)
    found = {name: body for body, name in re.findall(r"typedef struct {([^}]*)} (\w+);", text)}
    assert found.keys() == STRUCTS.keys() | set(HANDLES)
    for name, struct in STRUCTS.items():
        wanted = [
            (field, TYPES[declared])
            for declared, fields in re.findall(r"(\w+) ([\w, ]+);", found[name])
            for field in fields.split(", ")
        ]
        assert struct._fields_ == wanted


def test_versions() -> None:
    assert h26x.version() == "0.3.0" == h26x.__version__


def test_origin_is_told_in_three_words() -> None:
    assert re.fullmatch(r"(proved|source) 0\.3\.0 [a-z0-9_]+(-[a-z0-9_]+)+", h26x.origin())


def test_codecs_are_called_as_in_sdp() -> None:
    for codec in h26x.Codec:
        assert _library.library.h26x_codec_name(codec) == codec.name.encode()


def imports(library: str) -> "subprocess.CompletedProcess[str]":
    """Imports the package in another process, with this library."""
    environment = dict(os.environ, H26X_LIBRARY=library, PYTHONPATH=os.pathsep.join(sys.path))
    command = [sys.executable, "-c", "import h26x; print(h26x.version())"]
    return subprocess.run(command, env=environment, capture_output=True, text=True)


def test_the_library_is_found() -> None:
    assert imports(_library.library._name).stdout == "0.3.0\n"
    for library in ("/nowhere/libh26x.so", "libc.so.6"):
        told = imports(library).stderr.splitlines()[-1]
        assert told.startswith("ImportError: libh26x.so is") and library in told


class Newer:
    """A library of another version."""

    def __init__(self, number: int) -> None:
        self._number = number

    def __getattr__(self, name: str) -> Any:
        number = self._number

        def call() -> int:
            return number

        return call


MINOR = _library.MINOR << 8


@pytest.mark.parametrize("number", [0x10000, 0x10000 + MINOR, MINOR - 1])
def test_other_versions_are_refused(number: int) -> None:
    with pytest.raises(ImportError, match="another version"):
        _library._declared(Newer(number))  # type: ignore[arg-type]
    _library._declared(Newer(MINOR + 0x100))  # type: ignore[arg-type]
