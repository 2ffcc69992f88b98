//! The calls of `h26x.h` that a comparison or a benchmark makes, as that header declares them; what a caller owes
//! stands there.

use std::ffi::c_void;
use std::ptr;

/// A handle: a struct of one pointer, the same for every end.
#[repr(C)]
#[derive(Clone, Copy)]
pub struct Raw {
    at: *mut c_void,
}

impl Raw {
    /// Room for a handle that a call is to write.
    pub const fn room() -> Self {
        Raw {
            at: ptr::null_mut(),
        }
    }
}

/// The numbers of a refusal.
#[repr(C)]
#[derive(Default)]
pub struct Refusal {
    pub first: usize,
    pub second: usize,
}

/// A packet of H.265 in numbers.
#[repr(C)]
#[derive(Default)]
pub struct Shown {
    pub kind: u32,
    pub header: u16,
    pub word: u16,
    pub parts: usize,
}

/// The settings of a receiver of access units.
#[repr(C)]
pub struct Config {
    pub codec: u32,
    pub max_wait: u32,
    pub begin_wait: u32,
    pub window: u16,
    pub far_away: u16,
    pub far_behind: u16,
    pub numbers: bool,
    pub avc: bool,
    pub has_sets: bool,
    pub held_limit: usize,
    pub run_limit: usize,
    pub unit_limit: usize,
}

/// What is told of an access unit.
#[repr(C)]
#[derive(Debug, Default)]
pub struct Unit {
    pub len: usize,
    pub timestamp: u32,
    pub missing: u32,
    pub first: u16,
    pub last: u16,
    pub extra: u8,
    pub is_whole: bool,
    pub is_clean: bool,
    pub is_disposable: bool,
    pub continues: bool,
}

/// The code of a call whose output doesn't fit.
pub const NO_ROOM: u32 = 13;

/// A stream from one end to another.
#[repr(C)]
#[derive(Debug, Clone, Copy, Default)]
pub struct Stream {
    pub level: u64,
    pub mode: u64,
    pub sets: u32,
    pub is_there: bool,
    pub has_mode: bool,
}

unsafe extern "C" {
    pub fn h26x_packetizer_new(codec: u32, numbers: bool, made: *mut Raw) -> u32;
    pub fn h26x_packetizer_clone(p: *const Raw, made: *mut Raw) -> u32;
    pub fn h26x_packetizer_free(p: Raw);
    pub fn h26x_packetizer_set_numbers(p: *mut Raw, numbers: bool) -> u32;
    pub fn h26x_packetizer_set_max_size(p: *mut Raw, bytes: u16) -> u32;
    pub fn h26x_packetizer_set_lowest_header(p: *mut Raw, lowest: bool) -> u32;
    pub fn h26x_packetize(
        p: *mut Raw,
        mtu: usize,
        payload: *const u8,
        payload_len: usize,
        count: *mut usize,
    ) -> u32;
    pub fn h26x_packetize_into(
        p: *mut Raw,
        mtu: usize,
        payload: *const u8,
        payload_len: usize,
        headroom: usize,
        to: *mut u8,
        room: usize,
        ends: *mut usize,
        ends_room: usize,
        count: *mut usize,
        size: *mut usize,
    ) -> u32;
    pub fn h26x_packetize_unit_into(
        p: *mut Raw,
        mtu: usize,
        unit: *const u8,
        unit_len: usize,
        headroom: usize,
        to: *mut u8,
        room: usize,
        ends: *mut usize,
        ends_room: usize,
        count: *mut usize,
        size: *mut usize,
    ) -> u32;
    pub fn h26x_packets_size(
        p: *const Raw,
        mtu: usize,
        payload: *const u8,
        payload_len: usize,
        headroom: usize,
        count: *mut usize,
        size: *mut usize,
    ) -> u32;
    pub fn h26x_packet_len(p: *const Raw, i: usize) -> usize;
    pub fn h26x_packet_copy(p: *const Raw, i: usize, to: *mut u8, room: usize) -> usize;
    pub fn h26x_depacketizer_new(codec: u32, numbers: bool, made: *mut Raw) -> u32;
    pub fn h26x_depacketizer_clone(d: *const Raw, made: *mut Raw) -> u32;
    pub fn h26x_depacketizer_free(d: Raw);
    pub fn h26x_depacketizer_same(a: *const Raw, b: *const Raw) -> bool;
    pub fn h26x_depacketizer_set_numbers(d: *mut Raw, numbers: bool) -> u32;
    pub fn h26x_depacketize(
        d: *mut Raw,
        avc: bool,
        packet: *const u8,
        packet_len: usize,
        to: *mut u8,
        room: usize,
        written: *mut usize,
        extra: *mut u8,
        why: *mut Refusal,
    ) -> u32;
    pub fn h26x_written_copy(d: *const Raw, to: *mut u8, room: usize) -> usize;
    pub fn h26x_give_up_run(d: *mut Raw) -> u32;
    pub fn h26x_receiver_new(
        codec: u32,
        numbers: bool,
        avc: bool,
        run_limit: usize,
        made: *mut Raw,
    ) -> u32;
    pub fn h26x_receiver_clone(r: *const Raw, made: *mut Raw) -> u32;
    pub fn h26x_receiver_free(r: Raw);
    pub fn h26x_receiver_set_numbers(r: *mut Raw, numbers: bool) -> u32;
    pub fn h26x_receiver_set_avc(r: *mut Raw, avc: bool) -> u32;
    pub fn h26x_receive(
        r: *mut Raw,
        sequence: u16,
        packet: *const u8,
        packet_len: usize,
        to: *mut u8,
        room: usize,
        written: *mut usize,
        extra: *mut u8,
        received: *mut u32,
        count: *mut u16,
        why: *mut Refusal,
    ) -> u32;
    pub fn h26x_receiver_skip(
        r: *mut Raw,
        sequence: u16,
        received: *mut u32,
        count: *mut u16,
    ) -> u32;
    pub fn h26x_receiver_restart(r: *mut Raw) -> u32;
    pub fn h26x_receiver_run_len(r: *const Raw) -> usize;
    pub fn h26x_access_units_new(config: *const Config, made: *mut Raw) -> u32;
    pub fn h26x_access_units_free(u: Raw);
    pub fn h26x_access_units_push(
        u: *mut Raw,
        now: u32,
        sequence: u16,
        timestamp: u32,
        marker: bool,
        payload: *const u8,
        payload_len: usize,
        pushed: *mut u32,
        behind: *mut u16,
    ) -> u32;
    pub fn h26x_access_units_skip(
        u: *mut Raw,
        now: u32,
        sequence: u16,
        pushed: *mut u32,
        behind: *mut u16,
    ) -> u32;
    pub fn h26x_access_units_next(
        u: *mut Raw,
        now: u32,
        to: *mut u8,
        room: usize,
        unit: *mut Unit,
    ) -> u32;
    pub fn h26x_access_units_deadline(u: *const Raw, at: *mut u32) -> bool;
    pub fn h26x_access_units_missing(
        u: *const Raw,
        numbers: *mut u16,
        numbers_room: usize,
        count: *mut usize,
    ) -> u32;
    pub fn h26x_access_units_begin_at(u: *mut Raw, sequence: u16, in_time: *mut u32) -> u32;
    pub fn h26x_access_units_finish(u: *mut Raw) -> u32;
    pub fn h26x_access_units_restart(u: *mut Raw) -> u32;
    pub fn h26x_access_units_count(u: *const Raw, counts: *mut [u64; 15]) -> u32;
    pub fn h26x_h265_shown(d: *const Raw, shown: *mut Shown) -> u32;
    pub fn h26x_h265_part_copy(
        d: *const Raw,
        i: usize,
        to: *mut u8,
        room: usize,
        number: *mut u32,
    ) -> usize;
    pub fn h26x_h265_paci_packet(
        unit: *const u8,
        unit_len: usize,
        extension: *const u8,
        extension_len: usize,
        to: *mut u8,
        room: usize,
        len: *mut usize,
    ) -> u32;
    pub fn h26x_is_partition_head(codec: u32, packet: *const u8, packet_len: usize) -> bool;
    pub fn h26x_is_partition_tail(
        codec: u32,
        marker: bool,
        packet: *const u8,
        packet_len: usize,
    ) -> bool;
    pub fn h26x_detect_keyframe(codec: u32, packet: *const u8, packet_len: usize) -> bool;
    pub fn h26x_detect_h264_nalu(packet: *const u8, packet_len: usize, kind: u8) -> bool;
    pub fn h26x_set_lowest_header(codec: u32, numbers: bool, packet: *mut u8, packet_len: usize);
    pub fn h26x_next_unit(
        codec: u32,
        payload: *const u8,
        payload_len: usize,
        from: usize,
        begin: *mut usize,
        end: *mut usize,
    ) -> bool;
    pub fn h26x_unit_is_plain(codec: u32, unit: *const u8, unit_len: usize) -> bool;
    pub fn h26x_out_size_hint(packets_size: usize) -> usize;
    pub fn h26x_h264_profile_level(profile_level_id: u32, profile: *mut u8, level: *mut u8)
    -> bool;
    pub fn h26x_h265_is_known(profile_id: u8, tier_flag: u8, level_id: u8) -> bool;
    pub fn h26x_h266_is_known(profile_id: u8, tier_flag: u8, level_id: u8) -> bool;
    pub fn h26x_sdp_read(
        codec: u32,
        text: *const u8,
        text_len: usize,
        made: *mut Raw,
        why: *mut Refusal,
    ) -> u32;
    pub fn h26x_sdp_of_payload(
        codec: u32,
        payload: *const u8,
        payload_len: usize,
        made: *mut Raw,
    ) -> u32;
    pub fn h26x_sdp_answer(offered: *const Raw, ours: *const Raw, made: *mut Raw) -> u32;
    pub fn h26x_sdp_answer_any_order(offered: *const Raw, ours: *const Raw, made: *mut Raw) -> u32;
    pub fn h26x_sdp_answer_webrtc(
        offered: *const Raw,
        ours: *const Raw,
        any_order: bool,
        made: *mut Raw,
    ) -> u32;
    pub fn h26x_sdp_answer_with(
        offered: *const Raw,
        ours: *const Raw,
        options: u32,
        made: *mut Raw,
    ) -> u32;
    pub fn h26x_sdp_agreed(
        own: *const Raw,
        other: *const Raw,
        options: u32,
        sends: *mut Stream,
        receives: *mut Stream,
    ) -> u32;
    pub fn h26x_sdp_accepts_declared(declared: *const Raw, ours: *const Raw, options: u32) -> u32;
    pub fn h26x_sdp_set(
        h: *mut Raw,
        name: *const u8,
        name_len: usize,
        value: *const u8,
        value_len: usize,
    ) -> u32;
    pub fn h26x_sdp_unset(h: *mut Raw, name: *const u8, name_len: usize) -> u32;
    pub fn h26x_sdp_free(h: Raw);
    pub fn h26x_sdp_write(h: *const Raw, to: *mut u8, room: usize, len: *mut usize) -> u32;
}
