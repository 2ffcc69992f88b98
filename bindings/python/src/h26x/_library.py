"""Finds the library libh26x.so, and declares its calls as h26x.h has them."""

from __future__ import annotations

import ctypes
import ctypes.util
import os
from ctypes import (
    POINTER,
    Structure,
    c_bool,
    c_char_p,
    c_int32,
    c_size_t,
    c_uint8,
    c_uint16,
    c_uint32,
    c_uint64,
    c_void_p,
)
from typing import Any, Dict, List, Tuple

#: The library's versions that are known: this major number, and this minor number or a later one.
MAJOR, MINOR = 0, 3


class Handle(Structure):
    """A packetizer, a depacketizer, a receiver of any kind, a sender or format parameters: each is a struct of
    one pointer."""

    _fields_ = [("at", c_void_p)]


class Refusal(Structure):
    """The numbers of a refusal."""

    _fields_ = [("first", c_size_t), ("second", c_size_t)]


class ShownPacket(Structure):
    """A packet of H.265 in numbers."""

    _fields_ = [
        ("kind", c_uint32),
        ("header", c_uint16),
        ("word", c_uint16),
        ("parts", c_size_t),
    ]


class UnitsConfig(Structure):
    """What a caller sets of a receiver of access units."""

    _fields_ = [
        ("codec", c_uint32),
        ("max_wait", c_uint32),
        ("begin_wait", c_uint32),
        ("window", c_uint16),
        ("far_away", c_uint16),
        ("far_behind", c_uint16),
        ("numbers", c_bool),
        ("avc", c_bool),
        ("has_sets", c_bool),
        ("held_limit", c_size_t),
        ("run_limit", c_size_t),
        ("unit_limit", c_size_t),
    ]


class NackTimesGiven(Structure):
    """When missing numbers are asked for."""

    _fields_ = [("first", c_uint32), ("again", c_uint32), ("most", c_uint8)]


class UnitTold(Structure):
    """What is told of an access unit."""

    _fields_ = [
        ("len", c_size_t),
        ("timestamp", c_uint32),
        ("missing", c_uint32),
        ("first", c_uint16),
        ("last", c_uint16),
        ("extra", c_uint8),
        ("is_whole", c_bool),
        ("is_clean", c_bool),
        ("is_disposable", c_bool),
        ("continues", c_bool),
    ]


class SoFarTold(Structure):
    """What is told of an access unit that is open."""

    _fields_ = [
        ("len", c_size_t),
        ("timestamp", c_uint32),
        ("extra", c_uint8),
    ]


class UnitsCounts(Structure):
    """What a receiver of access units counts."""

    _fields_ = [
        (name, c_uint64)
        for name in (
            "taken",
            "lost",
            "late",
            "twice",
            "stray",
            "refused",
            "skipped",
            "anew",
            "units",
            "whole",
            "units_given_up",
            "texts_given_up",
            "no_unit",
            "still",
            "unbelieved",
        )
    ]


class ConstraintsSaid(Structure):
    """What constraints say."""

    _fields_ = [
        ("flags", c_uint64),
        ("len", c_size_t),
        ("frame_only", c_bool),
        ("multilayer", c_bool),
        ("general", c_bool),
    ]


class StreamNumbers(Structure):
    """A stream that is agreed on."""

    _fields_ = [
        ("level", c_uint64),
        ("mode", c_uint64),
        ("sets", c_uint32),
        ("is_there", c_bool),
        ("has_mode", c_bool),
    ]


class RtxNumbers(Structure):
    """A format of retransmission."""

    _fields_ = [
        ("rtx_time", c_uint64),
        ("payload_type", c_uint8),
        ("has_rtx_time", c_bool),
    ]


class PointNumbers(Structure):
    """A capability point."""

    _fields_ = [
        ("spatial_segmentation", c_uint64),
        ("tier_flag", c_uint64),
        ("level_id", c_uint64),
        ("max_lsr", c_uint64),
        ("max_lps", c_uint64),
        ("max_br", c_uint64),
        ("tool", c_uint8),
        ("has_tier_flag", c_uint8),
        ("has_level_id", c_uint8),
        ("has_max_lsr", c_uint8),
        ("has_max_lps", c_uint8),
        ("has_max_br", c_uint8),
    ]


class RtpPayload(Structure):
    """A packet whose payload lies in a buffer with others."""

    _fields_ = [
        ("begin", c_size_t),
        ("end", c_size_t),
        ("timestamp", c_uint32),
        ("sequence", c_uint16),
        ("marker", c_bool),
    ]


class PushTold(Structure):
    """What became of a packet that was pushed."""

    _fields_ = [("pushed", c_uint32), ("behind", c_uint16)]


class ReceiveTold(Structure):
    """What became of a packet with its sequence number."""

    _fields_ = [
        ("written", c_size_t),
        ("why", Refusal),
        ("code", c_uint32),
        ("received", c_uint32),
        ("count", c_uint16),
        ("extra", c_uint8),
    ]


class RtpFields(Structure):
    """What the header of an RTP packet says in numbers."""

    _fields_ = [
        ("timestamp", c_uint32),
        ("ssrc", c_uint32),
        ("sequence", c_uint16),
        ("profile", c_uint16),
        ("payload_type", c_uint8),
        ("marker", c_bool),
        ("has_extension", c_bool),
    ]


class RtpPlaces(Structure):
    """Where the parts of an RTP packet are."""

    _fields_ = [
        ("header", RtpFields),
        ("csrcs_len", c_size_t),
        ("extension_len", c_size_t),
        ("payload", c_size_t),
        ("payload_len", c_size_t),
        ("padding_len", c_size_t),
    ]


class ElementPlace(Structure):
    """Where an element of a header extension is."""

    _fields_ = [("begin", c_size_t), ("len", c_size_t), ("id", c_uint8)]


class BlockPlace(Structure):
    """Where a block before the primary one of a redundant payload is."""

    _fields_ = [
        ("begin", c_size_t),
        ("len", c_size_t),
        ("timestamp_offset", c_uint16),
        ("payload_type", c_uint8),
    ]


class ReportGiven(Structure):
    """What a receiver reports of a source."""

    _fields_ = [
        ("ssrc", c_uint32),
        ("lost", c_int32),
        ("highest", c_uint32),
        ("jitter", c_uint32),
        ("last_sender_report", c_uint32),
        ("delay", c_uint32),
        ("fraction_lost", c_uint8),
    ]


class StatisticsKept(Structure):
    """What is counted of a source."""

    _fields_ = [
        ("expected", c_uint64),
        ("received", c_uint64),
        ("bytes", c_uint64),
        ("recovered", c_uint64),
        ("jitter", c_uint64),
        ("expected_before", c_uint64),
        ("received_before", c_uint64),
        ("transit", c_uint32),
        ("base", c_uint16),
        ("highest", c_uint16),
        ("after_jump", c_uint16),
        ("has_transit", c_bool),
        ("has_jumped", c_bool),
    ]


class PayloadTypesGiven(Structure):
    """The payload types of one stream."""

    _fields_ = [
        ("media", c_uint8),
        ("rtx", c_uint8),
        ("red", c_uint8),
        ("rtx_of_red", c_uint8),
        ("fec", c_uint8),
        ("has_rtx", c_bool),
        ("has_red", c_bool),
        ("has_rtx_of_red", c_bool),
        ("has_fec", c_bool),
    ]


class SourcesGiven(Structure):
    """The sources of one stream."""

    _fields_ = [
        ("media", c_uint32),
        ("rtx", c_uint32),
        ("has_media", c_bool),
        ("has_rtx", c_bool),
    ]


class StreamsGiven(Structure):
    """The streams of a sender."""

    _fields_ = [
        ("ssrc", c_uint32),
        ("rtx_ssrc", c_uint32),
        ("sequence", c_uint16),
        ("rtx_sequence", c_uint16),
        ("payload_type", c_uint8),
        ("rtx_payload_type", c_uint8),
        ("has_rtx", c_bool),
    ]


class SentTold(Structure):
    """What was sent."""

    _fields_ = [(name, c_uint64) for name in ("packets", "bytes", "rtx_packets", "rtx_bytes")]


class DatagramTold(Structure):
    """What became of a datagram."""

    _fields_ = [
        ("became", c_uint32),
        ("ssrc", c_uint32),
        ("no_media", c_uint32),
        ("pushed", c_uint32),
        ("behind", c_uint16),
        ("sequence", c_uint16),
        ("payload_type", c_uint8),
        ("is_recovered", c_bool),
    ]


_HANDLE = POINTER(Handle)
_SIZE = POINTER(c_size_t)
_BYTE = POINTER(c_uint8)
_SHORT = POINTER(c_uint16)
_WORD = POINTER(c_uint32)
_LONG = POINTER(c_uint64)
_WHY = POINTER(Refusal)
_SHOWN = POINTER(ShownPacket)
_CONFIG = POINTER(UnitsConfig)
_TIMES = POINTER(NackTimesGiven)
_UNIT = POINTER(UnitTold)
_SO_FAR = POINTER(SoFarTold)
_COUNTS = POINTER(UnitsCounts)
_SAID = POINTER(ConstraintsSaid)
_AGREED = POINTER(StreamNumbers)
_RTX = POINTER(RtxNumbers)
_FIELDS = POINTER(RtpFields)
_PLACES = POINTER(RtpPlaces)
_ELEMENT = POINTER(ElementPlace)
_REPORT = POINTER(ReportGiven)
_STATISTICS = POINTER(StatisticsKept)
_TYPES = POINTER(PayloadTypesGiven)
_SOURCES = POINTER(SourcesGiven)
_STREAMS = POINTER(StreamsGiven)
_SENT = POINTER(SentTold)
_DATAGRAM = POINTER(DatagramTold)
# Bytes that a call reads are a `bytes` object, which nobody changes meanwhile. Those that it writes
# are an address.
_IN = (c_char_p, c_size_t)
_OUT = (c_void_p, c_size_t)

_NEW = (c_uint32, [c_uint32, c_bool, _HANDLE])
_CLONE = (c_uint32, [_HANDLE, _HANDLE])
_FREE = (None, [Handle])
_SET = (c_uint32, [_HANDLE, c_bool])
_DO = (c_uint32, [_HANDLE])
_MAKE = (c_uint32, [_HANDLE, c_size_t, *_IN, _SIZE])
_INTO = (c_uint32, [_HANDLE, c_size_t, *_IN, c_size_t, *_OUT, *_OUT, _SIZE, _SIZE])
_IS_KNOWN = (c_bool, [c_uint8, c_uint8, c_uint8])

#: What each call answers, and what it is given.
CALLS: Dict[str, Tuple[Any, List[Any]]] = {
    "version": (c_uint32, []),
    "origin": (c_char_p, []),
    "codec_name": (c_char_p, [c_uint32]),
    "strerror": (c_char_p, [c_uint32]),
    "packetizer_new": _NEW,
    "packetizer_clone": _CLONE,
    "packetizer_free": _FREE,
    "packetizer_set_numbers": _SET,
    "packetizer_set_max_size": (c_uint32, [_HANDLE, c_uint16]),
    "packetizer_set_lowest_header": (c_uint32, [_HANDLE, c_bool]),
    "packetize": _MAKE,
    "packetize_unit": _MAKE,
    "packetize_into": _INTO,
    "packetize_unit_into": _INTO,
    "packets_size": (c_uint32, [_HANDLE, c_size_t, *_IN, c_size_t, _SIZE, _SIZE]),
    "packetizer_set_packing": (c_uint32, [_HANDLE, c_uint32]),
    "packetizer_set_delimiters": (c_uint32, [_HANDLE, c_bool]),
    "packetize_units": (c_uint32, [_HANDLE, c_size_t, *_IN, _SIZE, _WHY]),
    "packetize_units_into": (
        c_uint32,
        [_HANDLE, c_size_t, *_IN, c_size_t, *_OUT, *_OUT, _SIZE, _SIZE, _WHY],
    ),
    "units_size": (c_uint32, [_HANDLE, c_size_t, *_IN, c_size_t, _SIZE, _SIZE, _WHY]),
    "packet_count": (c_size_t, [_HANDLE]),
    "packet_len": (c_size_t, [_HANDLE, c_size_t]),
    "packets_len": (c_size_t, [_HANDLE]),
    "packet_copy": (c_size_t, [_HANDLE, c_size_t, *_OUT]),
    "packets_copy": (c_size_t, [_HANDLE, c_size_t, *_OUT, *_OUT]),
    "depacketizer_new": _NEW,
    "depacketizer_clone": _CLONE,
    "depacketizer_free": _FREE,
    "depacketizer_same": (c_bool, [_HANDLE, _HANDLE]),
    "depacketizer_set_numbers": _SET,
    "depacketize": (c_uint32, [_HANDLE, c_bool, *_IN, *_OUT, _SIZE, _BYTE, _WHY]),
    "written_copy": (c_size_t, [_HANDLE, *_OUT]),
    "give_up_run": _DO,
    "receiver_new": (c_uint32, [c_uint32, c_bool, c_bool, c_size_t, _HANDLE]),
    "receiver_clone": _CLONE,
    "receiver_free": _FREE,
    "receiver_set_numbers": _SET,
    "receiver_set_avc": _SET,
    "receive": (
        c_uint32,
        [_HANDLE, c_uint16, *_IN, *_OUT, _SIZE, _BYTE, _WORD, _SHORT, _WHY],
    ),
    "receive_all": (c_uint32, [_HANDLE, *_IN, *_IN, *_OUT, *_OUT, _SIZE, _SIZE]),
    "receiver_skip": (c_uint32, [_HANDLE, c_uint16, _WORD, _SHORT]),
    "receiver_restart": _DO,
    "receiver_run_len": (c_size_t, [_HANDLE]),
    "access_units_new": (c_uint32, [_CONFIG, _HANDLE]),
    "access_units_set_config": (c_uint32, [_HANDLE, _CONFIG]),
    "access_units_free": _FREE,
    "access_units_push": (
        c_uint32,
        [_HANDLE, c_uint32, c_uint16, c_uint32, c_bool, *_IN, _WORD, _SHORT],
    ),
    "access_units_skip": (c_uint32, [_HANDLE, c_uint32, c_uint16, _WORD, _SHORT]),
    "access_units_push_all": (c_uint32, [_HANDLE, c_uint32, *_IN, *_IN, *_OUT, _SIZE]),
    "access_units_next": (c_uint32, [_HANDLE, c_uint32, *_OUT, _UNIT]),
    "access_units_so_far": (c_bool, [_HANDLE, c_size_t, *_OUT, _SO_FAR]),
    "access_units_deadline": (c_bool, [_HANDLE, _WORD]),
    "access_units_missing": (c_uint32, [_HANDLE, *_OUT, _SIZE]),
    "access_units_nacks": (c_uint32, [_HANDLE, c_uint32, _TIMES, *_OUT, _SIZE]),
    "access_units_begin_at": (c_uint32, [_HANDLE, c_uint16, _WORD]),
    "access_units_finish": _DO,
    "access_units_restart": _DO,
    "access_units_count": (c_uint32, [_HANDLE, _COUNTS]),
    "h265_shown": (c_uint32, [_HANDLE, _SHOWN]),
    "h265_part_copy": (c_size_t, [_HANDLE, c_size_t, *_OUT, _WORD]),
    "h265_paci_packet": (c_uint32, [*_IN, *_IN, *_OUT, _SIZE]),
    "is_partition_head": (c_bool, [c_uint32, *_IN]),
    "is_partition_tail": (c_bool, [c_uint32, c_bool, *_IN]),
    "detect_keyframe": (c_bool, [c_uint32, *_IN]),
    "begins_keyframe": (c_bool, [c_uint32, c_bool, *_IN]),
    "detect_h264_nalu": (c_bool, [*_IN, c_uint8]),
    "set_lowest_header": (None, [c_uint32, c_bool, _BYTE, c_size_t]),
    "next_unit": (c_bool, [c_uint32, *_IN, c_size_t, _SIZE, _SIZE]),
    "next_avc_unit": (c_bool, [*_IN, c_size_t, _SIZE, _SIZE]),
    "unit_is_plain": (c_bool, [c_uint32, *_IN]),
    "out_size_hint": (c_size_t, [c_size_t]),
    "h264_profile_level": (c_bool, [c_uint32, _BYTE, _BYTE]),
    "h265_is_known": _IS_KNOWN,
    "h266_is_known": _IS_KNOWN,
    "is_rtcp": (c_bool, [*_IN]),
    "rtp_read": (c_uint32, [*_IN, _PLACES]),
    "rtp_element_next": (c_uint32, [c_uint16, *_IN, c_size_t, _ELEMENT]),
    "rtp_original": (c_uint32, [*_IN, c_uint8, c_uint32, _PLACES]),
    "rtp_write": (c_uint32, [_FIELDS, *_IN, *_IN, *_IN, *_IN, *_OUT, _SIZE]),
    "rtp_write_before": (c_uint32, [_FIELDS, *_IN, *_IN, c_bool, c_size_t, *_OUT, _SIZE]),
    "rtx_write": (c_uint32, [*_IN, c_uint8, c_uint16, c_uint32, *_OUT, _SIZE]),
    "red_primary": (c_uint32, [*_IN, _BYTE, _SIZE]),
    "red_blocks": (c_uint32, [*_IN, *_OUT, _SIZE]),
    "pli_write": (c_uint32, [c_uint32, c_uint32, *_OUT, _SIZE]),
    "pli_read": (c_bool, [*_IN, _WORD, _WORD]),
    "fir_write": (c_uint32, [c_uint32, c_uint32, c_uint8, *_OUT, _SIZE]),
    "fir_read": (c_bool, [*_IN, _WORD, _WORD, _BYTE]),
    "receiver_report_write": (c_uint32, [c_uint32, _REPORT, *_OUT, _SIZE]),
    "receiver_report_read": (c_bool, [*_IN, _WORD, _REPORT]),
    "nack_write": (c_uint32, [c_uint32, c_uint32, *_IN, *_OUT, _SIZE, _SIZE]),
    "nack_read": (c_bool, [*_IN, _WORD, _WORD, *_OUT, _SIZE]),
    "rtcp_next": (c_bool, [*_IN, c_size_t, _SIZE]),
    "rtp_statistics_receive": (c_bool, [_STATISTICS, c_uint32, c_uint16, c_uint32, c_size_t]),
    "rtp_statistics_recover": (None, [_STATISTICS]),
    "rtp_statistics_report": (None, [_STATISTICS, c_uint32, c_uint32, c_uint32, _REPORT]),
    "rtp_receiver_new": (c_uint32, [_CONFIG, _TYPES, _HANDLE]),
    "rtp_receiver_set_config": (c_uint32, [_HANDLE, _CONFIG]),
    "rtp_receiver_free": _FREE,
    "rtp_receiver_follow": (c_uint32, [_HANDLE, _SOURCES]),
    "rtp_receiver_sources": (c_uint32, [_HANDLE, _SOURCES]),
    "rtp_receiver_push": (c_uint32, [_HANDLE, c_uint32, c_uint32, *_IN, _DATAGRAM]),
    "rtp_receiver_next": (c_uint32, [_HANDLE, c_uint32, *_OUT, _UNIT]),
    "rtp_receiver_so_far": (c_bool, [_HANDLE, c_size_t, *_OUT, _SO_FAR]),
    "rtp_receiver_deadline": (c_bool, [_HANDLE, _WORD]),
    "rtp_receiver_nacks": (c_uint32, [_HANDLE, c_uint32, _TIMES, *_OUT, _SIZE]),
    "rtp_receiver_keyframe_wanted": (c_bool, [_HANDLE, c_uint32, c_uint32]),
    "rtp_receiver_statistics": (c_uint32, [_HANDLE, _STATISTICS]),
    "rtp_receiver_report": (c_bool, [_HANDLE, c_uint32, c_uint32, _REPORT]),
    "rtp_receiver_finish": _DO,
    "rtp_receiver_count": (c_uint32, [_HANDLE, _COUNTS]),
    "rtp_sender_new": (c_uint32, [_STREAMS, c_size_t, _HANDLE]),
    "rtp_sender_free": _FREE,
    "rtp_sender_send": (
        c_uint32,
        [_HANDLE, c_uint32, c_uint16, *_IN, c_size_t, *_OUT, *_IN, _SIZE],
    ),
    "rtp_sender_resend": (c_uint32, [_HANDLE, c_uint16, *_OUT, _SIZE]),
    "rtp_sender_streams": (c_uint32, [_HANDLE, _STREAMS]),
    "rtp_sender_count": (c_uint32, [_HANDLE, _SENT]),
    "sdp_read": (c_uint32, [c_uint32, *_IN, _HANDLE, _WHY]),
    "sdp_of_payload": (c_uint32, [c_uint32, *_IN, _HANDLE]),
    "sdp_answer": (c_uint32, [_HANDLE, _HANDLE, _HANDLE]),
    "sdp_answer_any_order": (c_uint32, [_HANDLE, _HANDLE, _HANDLE]),
    "sdp_answer_webrtc": (c_uint32, [_HANDLE, _HANDLE, c_bool, _HANDLE]),
    "sdp_answer_with": (c_uint32, [_HANDLE, _HANDLE, c_uint32, _HANDLE]),
    "sdp_broken_rule": (c_uint32, [_HANDLE, c_uint32, _WHY]),
    "sdp_name": (c_uint32, [_HANDLE, c_size_t, *_OUT, _SIZE]),
    "sdp_agreed": (c_uint32, [_HANDLE, _HANDLE, c_uint32, _AGREED, _AGREED]),
    "sdp_accepts_declared": (c_uint32, [_HANDLE, _HANDLE, c_uint32]),
    "sdp_level_unit": (c_uint32, [_HANDLE, c_uint64, c_size_t, *_OUT, _SIZE, _WHY]),
    "sdp_free": _FREE,
    "sdp_codec": (c_uint32, [_HANDLE]),
    "sdp_write": (c_uint32, [_HANDLE, *_OUT, _SIZE]),
    "sdp_set": (c_uint32, [_HANDLE, *_IN, *_IN]),
    "sdp_unset": (c_uint32, [_HANDLE, *_IN]),
    "sdp_value": (c_uint32, [_HANDLE, *_IN, c_bool, *_OUT, _SIZE]),
    "sdp_number": (c_uint32, [_HANDLE, *_IN, c_bool, _LONG]),
    "sdp_units": (c_uint32, [_HANDLE, *_IN, _SIZE, _WHY]),
    "sdp_unit": (c_uint32, [_HANDLE, *_IN, c_size_t, *_OUT, _SIZE, _WHY]),
    "sdp_other": (c_uint32, [_HANDLE, c_size_t, *_OUT, _SIZE, *_OUT, _SIZE]),
    "sdp_max_don_diff": (c_uint32, [_HANDLE, _WORD]),
    "sdp_constraints": (c_uint32, [_HANDLE, *_OUT, _SAID]),
    "sdp_capability_points": (c_uint32, [_HANDLE, c_bool, *_OUT, _SIZE, _WHY]),
    "fits_single_units": (c_bool, [*_IN, c_size_t]),
    "rtpmap_read": (c_uint32, [*_IN, _BYTE, _WORD]),
    "rtpmap_write": (c_uint32, [c_uint8, c_uint32, *_OUT, _SIZE]),
    "repairmap_read": (c_uint32, [*_IN, _BYTE, _WORD]),
    "repairmap_write": (c_uint32, [c_uint8, c_uint32, *_OUT, _SIZE]),
    "rtx_format_read": (c_uint32, [*_IN, _RTX, _WHY]),
    "rtx_format_write": (c_uint32, [_RTX, *_OUT, _SIZE]),
}


def _opened() -> ctypes.CDLL:
    """The library that H26X_LIBRARY names, else the one in this package, else the one that is installed."""
    named = os.environ.get("H26X_LIBRARY")
    within = os.path.join(os.path.dirname(__file__), "libh26x.so.0")
    names = [named] if named else [within] if os.path.exists(within) else []
    names = names or ["libh26x.so.0", ctypes.util.find_library("h26x") or ""]
    told = []
    for name in filter(None, names):
        try:
            return ctypes.CDLL(name)
        except OSError as why:
            told.append(str(why))
    raise ImportError(
        "libh26x.so isn't found: install it, or let H26X_LIBRARY be its path ("
        + "; ".join(told)
        + ")"
    )


def _declared(opened: ctypes.CDLL) -> ctypes.CDLL:
    """The same library, with the types of its calls, where it is of a version that is known."""
    for name, (restype, argtypes) in CALLS.items():
        try:
            call = getattr(opened, "h26x_" + name)
        except AttributeError as why:
            raise ImportError(f"libh26x.so is of another version: {why}") from None
        call.restype, call.argtypes = restype, argtypes
    number = opened.h26x_version()
    if number >> 16 != MAJOR or number >> 8 & 255 < MINOR:
        raise ImportError(f"libh26x.so is of another version: its number is {number:#x}")
    return opened


library = _declared(_opened())
