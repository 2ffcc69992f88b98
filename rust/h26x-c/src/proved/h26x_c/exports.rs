// Made from crates/h26x_c by tools/to-rust.

//! The calls of `h26x.h`, by what C gives for them.
//!
//! A caller owes what the header says. So a pointer is NULL, where it may be, or that of a buffer of the length
//! behind it, of a handle or of an output, which nothing else reads or writes while the call runs.

pub use super::access_units::Config;
pub use super::access_units::Counts;
pub use super::access_units::NackTimes;
pub use super::const_handle::ConstHandle;
pub use super::handle::Handle;
pub use super::parts::BlockPlace;
pub use super::parts::ElementPlace;
pub use super::place::Place;
pub use super::rtcp::Report;
pub use super::rtcp::Statistics;
pub use super::rtp::RtpFields;
pub use super::rtp::RtpPlaces;
pub use super::rtp_receiver::DatagramTold;
pub use super::rtp_receiver::PayloadTypes;
pub use super::rtp_receiver::Sources;
pub use super::rtp_sender::SentCounts;
pub use super::rtp_sender::Streams;
pub use super::shown::Shown;
pub use super::so_far::SoFarTold;
use crate::pointers;
pub use crate::proved::h26x_codes::code::Refusal;
pub use crate::proved::h26x_handles::access_units::UnitTold;
pub use crate::proved::h26x_handles::payloads::RtpPayload;
pub use crate::proved::h26x_handles::push_all::PushTold;
pub use crate::proved::h26x_handles::receive_all::ReceivedTold;
pub use crate::proved::h26x_sdp_handles::repair::RtxNumbers;
pub use crate::proved::h26x_sdp_handles::sdp_values::ConstraintNumbers;
pub use crate::proved::h26x_sdp_handles::sdp_values::PointNumbers;
pub use crate::proved::h26x_sdp_handles::streams::StreamNumbers;
use core::mem::MaybeUninit;

#[unsafe(no_mangle)]
pub unsafe extern "C" fn h26x_access_units_new(config: *const Config, made: *mut Place) -> u32 {
    // SAFETY: a caller owes what the header says.
    unsafe {
        super::access_units::h26x_access_units_new(pointers::shared(config), pointers::made(made))
    }
}

#[unsafe(no_mangle)]
pub unsafe extern "C" fn h26x_access_units_free(u: Handle) {
    if u.ptr.is_null() {
        return;
    }
    super::access_units::h26x_access_units_free(u)
}

#[unsafe(no_mangle)]
pub unsafe extern "C" fn h26x_access_units_set_config(
    u: *mut Handle,
    config: *const Config,
) -> u32 {
    // SAFETY: a caller owes what the header says.
    unsafe {
        super::access_units::h26x_access_units_set_config(
            pointers::lent(u),
            pointers::shared(config),
        )
    }
}

#[unsafe(no_mangle)]
pub unsafe extern "C" fn h26x_access_units_push(
    u: *mut Handle,
    now: u32,
    sequence: u16,
    timestamp: u32,
    marker: bool,
    payload: *const u8,
    payload_len: usize,
    pushed: *mut u32,
    behind: *mut u16,
) -> u32 {
    let mut no_pushed = MaybeUninit::uninit();
    let mut no_behind = MaybeUninit::uninit();
    // SAFETY: a caller owes what the header says.
    unsafe {
        super::access_units::h26x_access_units_push(
            pointers::lent(u),
            now,
            sequence,
            timestamp,
            marker,
            pointers::items(payload, payload_len),
            pointers::output(pushed, &mut no_pushed),
            pointers::output(behind, &mut no_behind),
        )
    }
}

#[unsafe(no_mangle)]
pub unsafe extern "C" fn h26x_access_units_skip(
    u: *mut Handle,
    now: u32,
    sequence: u16,
    pushed: *mut u32,
    behind: *mut u16,
) -> u32 {
    let mut no_pushed = MaybeUninit::uninit();
    let mut no_behind = MaybeUninit::uninit();
    // SAFETY: a caller owes what the header says.
    unsafe {
        super::access_units::h26x_access_units_skip(
            pointers::lent(u),
            now,
            sequence,
            pointers::output(pushed, &mut no_pushed),
            pointers::output(behind, &mut no_behind),
        )
    }
}

#[unsafe(no_mangle)]
pub unsafe extern "C" fn h26x_access_units_next(
    u: *mut Handle,
    now: u32,
    to: *mut u8,
    room: usize,
    unit: *mut UnitTold,
) -> u32 {
    let mut no_unit = MaybeUninit::uninit();
    // SAFETY: a caller owes what the header says.
    unsafe {
        super::access_units::h26x_access_units_next(
            pointers::lent(u),
            now,
            pointers::room(to, room),
            pointers::output(unit, &mut no_unit),
        )
    }
}

#[unsafe(no_mangle)]
pub unsafe extern "C" fn h26x_access_units_deadline(u: *const ConstHandle, at: *mut u32) -> bool {
    let mut no_at = MaybeUninit::uninit();
    // SAFETY: a caller owes what the header says.
    unsafe {
        super::access_units::h26x_access_units_deadline(
            pointers::shared(u),
            pointers::output(at, &mut no_at),
        )
    }
}

#[unsafe(no_mangle)]
pub unsafe extern "C" fn h26x_access_units_missing(
    u: *const ConstHandle,
    numbers: *mut u16,
    numbers_room: usize,
    count: *mut usize,
) -> u32 {
    let mut no_count = MaybeUninit::uninit();
    // SAFETY: a caller owes what the header says.
    unsafe {
        super::access_units::h26x_access_units_missing(
            pointers::shared(u),
            pointers::room(numbers, numbers_room),
            pointers::output(count, &mut no_count),
        )
    }
}

#[unsafe(no_mangle)]
pub unsafe extern "C" fn h26x_access_units_nacks(
    u: *mut Handle,
    now: u32,
    times: *const NackTimes,
    numbers: *mut u16,
    numbers_room: usize,
    count: *mut usize,
) -> u32 {
    let mut no_count = MaybeUninit::uninit();
    // SAFETY: a caller owes what the header says.
    unsafe {
        super::access_units::h26x_access_units_nacks(
            pointers::lent(u),
            now,
            pointers::shared(times),
            pointers::room(numbers, numbers_room),
            pointers::output(count, &mut no_count),
        )
    }
}

#[unsafe(no_mangle)]
pub unsafe extern "C" fn h26x_access_units_begin_at(
    u: *mut Handle,
    sequence: u16,
    in_time: *mut u32,
) -> u32 {
    let mut no_in_time = MaybeUninit::uninit();
    // SAFETY: a caller owes what the header says.
    unsafe {
        super::access_units::h26x_access_units_begin_at(
            pointers::lent(u),
            sequence,
            pointers::output(in_time, &mut no_in_time),
        )
    }
}

#[unsafe(no_mangle)]
pub unsafe extern "C" fn h26x_access_units_finish(u: *mut Handle) -> u32 {
    // SAFETY: a caller owes what the header says.
    unsafe { super::access_units::h26x_access_units_finish(pointers::lent(u)) }
}

#[unsafe(no_mangle)]
pub unsafe extern "C" fn h26x_access_units_restart(u: *mut Handle) -> u32 {
    // SAFETY: a caller owes what the header says.
    unsafe { super::access_units::h26x_access_units_restart(pointers::lent(u)) }
}

#[unsafe(no_mangle)]
pub unsafe extern "C" fn h26x_access_units_count(
    u: *const ConstHandle,
    counts: *mut Counts,
) -> u32 {
    let mut no_counts = MaybeUninit::uninit();
    // SAFETY: a caller owes what the header says.
    unsafe {
        super::access_units::h26x_access_units_count(
            pointers::shared(u),
            pointers::output(counts, &mut no_counts),
        )
    }
}

#[unsafe(no_mangle)]
pub unsafe extern "C" fn h26x_packetizer_set_packing(p: *mut Handle, packing: u32) -> u32 {
    // SAFETY: a caller owes what the header says.
    unsafe { super::every_unit::h26x_packetizer_set_packing(pointers::lent(p), packing) }
}

#[unsafe(no_mangle)]
pub unsafe extern "C" fn h26x_packetizer_set_delimiters(p: *mut Handle, delimiters: bool) -> u32 {
    // SAFETY: a caller owes what the header says.
    unsafe { super::every_unit::h26x_packetizer_set_delimiters(pointers::lent(p), delimiters) }
}

#[unsafe(no_mangle)]
pub unsafe extern "C" fn h26x_packetize_units(
    p: *mut Handle,
    mtu: usize,
    access_unit: *const u8,
    access_unit_len: usize,
    count: *mut usize,
    why: *mut Refusal,
) -> u32 {
    let mut no_count = MaybeUninit::uninit();
    let mut no_why = MaybeUninit::uninit();
    // SAFETY: a caller owes what the header says.
    unsafe {
        super::every_unit::h26x_packetize_units(
            pointers::lent(p),
            mtu,
            pointers::items(access_unit, access_unit_len),
            pointers::output(count, &mut no_count),
            pointers::output(why, &mut no_why),
        )
    }
}

#[unsafe(no_mangle)]
pub unsafe extern "C" fn h26x_units_size(
    p: *const ConstHandle,
    mtu: usize,
    access_unit: *const u8,
    access_unit_len: usize,
    headroom: usize,
    count: *mut usize,
    size: *mut usize,
    why: *mut Refusal,
) -> u32 {
    let mut no_count = MaybeUninit::uninit();
    let mut no_size = MaybeUninit::uninit();
    let mut no_why = MaybeUninit::uninit();
    // SAFETY: a caller owes what the header says.
    unsafe {
        super::every_unit::h26x_units_size(
            pointers::shared(p),
            mtu,
            pointers::items(access_unit, access_unit_len),
            headroom,
            pointers::output(count, &mut no_count),
            pointers::output(size, &mut no_size),
            pointers::output(why, &mut no_why),
        )
    }
}

#[unsafe(no_mangle)]
pub unsafe extern "C" fn h26x_packetize_units_into(
    p: *mut Handle,
    mtu: usize,
    access_unit: *const u8,
    access_unit_len: usize,
    headroom: usize,
    to: *mut u8,
    room: usize,
    ends: *mut usize,
    ends_room: usize,
    count: *mut usize,
    size: *mut usize,
    why: *mut Refusal,
) -> u32 {
    let mut no_count = MaybeUninit::uninit();
    let mut no_size = MaybeUninit::uninit();
    let mut no_why = MaybeUninit::uninit();
    // SAFETY: a caller owes what the header says.
    unsafe {
        super::every_unit::h26x_packetize_units_into(
            pointers::lent(p),
            mtu,
            pointers::items(access_unit, access_unit_len),
            headroom,
            pointers::room(to, room),
            pointers::room(ends, ends_room),
            pointers::output(count, &mut no_count),
            pointers::output(size, &mut no_size),
            pointers::output(why, &mut no_why),
        )
    }
}

#[unsafe(no_mangle)]
pub unsafe extern "C" fn h26x_h265_paci_packet(
    unit: *const u8,
    unit_len: usize,
    extension: *const u8,
    extension_len: usize,
    to: *mut u8,
    room: usize,
    len: *mut usize,
) -> u32 {
    let mut no_len = MaybeUninit::uninit();
    // SAFETY: a caller owes what the header says.
    unsafe {
        super::paci::h26x_h265_paci_packet(
            pointers::items(unit, unit_len),
            pointers::items(extension, extension_len),
            pointers::room(to, room),
            pointers::output(len, &mut no_len),
        )
    }
}

#[unsafe(no_mangle)]
pub unsafe extern "C" fn h26x_is_partition_head(
    codec: u32,
    packet: *const u8,
    packet_len: usize,
) -> bool {
    // SAFETY: a caller owes what the header says.
    unsafe { super::packets::h26x_is_partition_head(codec, pointers::items(packet, packet_len)) }
}

#[unsafe(no_mangle)]
pub unsafe extern "C" fn h26x_is_partition_tail(
    codec: u32,
    marker: bool,
    packet: *const u8,
    packet_len: usize,
) -> bool {
    // SAFETY: a caller owes what the header says.
    unsafe {
        super::packets::h26x_is_partition_tail(codec, marker, pointers::items(packet, packet_len))
    }
}

#[unsafe(no_mangle)]
pub unsafe extern "C" fn h26x_detect_keyframe(
    codec: u32,
    packet: *const u8,
    packet_len: usize,
) -> bool {
    // SAFETY: a caller owes what the header says.
    unsafe { super::packets::h26x_detect_keyframe(codec, pointers::items(packet, packet_len)) }
}

#[unsafe(no_mangle)]
pub unsafe extern "C" fn h26x_begins_keyframe(
    codec: u32,
    numbers: bool,
    packet: *const u8,
    packet_len: usize,
) -> bool {
    // SAFETY: a caller owes what the header says.
    unsafe {
        super::packets::h26x_begins_keyframe(codec, numbers, pointers::items(packet, packet_len))
    }
}

#[unsafe(no_mangle)]
pub unsafe extern "C" fn h26x_detect_h264_nalu(
    packet: *const u8,
    packet_len: usize,
    kind: u8,
) -> bool {
    // SAFETY: a caller owes what the header says.
    unsafe { super::packets::h26x_detect_h264_nalu(pointers::items(packet, packet_len), kind) }
}

#[unsafe(no_mangle)]
pub unsafe extern "C" fn h26x_set_lowest_header(
    codec: u32,
    numbers: bool,
    packet: *mut u8,
    packet_len: usize,
) {
    // SAFETY: a caller owes what the header says.
    unsafe {
        super::packets::h26x_set_lowest_header(codec, numbers, pointers::room(packet, packet_len))
    }
}

#[unsafe(no_mangle)]
pub extern "C" fn h26x_out_size_hint(packets_size: usize) -> usize {
    super::packets::h26x_out_size_hint(packets_size)
}

#[unsafe(no_mangle)]
pub unsafe extern "C" fn h26x_rtp_element_next(
    profile: u16,
    extension: *const u8,
    extension_len: usize,
    from: usize,
    element: *mut ElementPlace,
) -> u32 {
    let mut no_element = MaybeUninit::uninit();
    // SAFETY: a caller owes what the header says.
    unsafe {
        super::parts::h26x_rtp_element_next(
            profile,
            pointers::items(extension, extension_len),
            from,
            pointers::output(element, &mut no_element),
        )
    }
}

#[unsafe(no_mangle)]
pub unsafe extern "C" fn h26x_red_blocks(
    payload: *const u8,
    payload_len: usize,
    blocks: *mut BlockPlace,
    blocks_room: usize,
    count: *mut usize,
) -> u32 {
    let mut no_count = MaybeUninit::uninit();
    // SAFETY: a caller owes what the header says.
    unsafe {
        super::parts::h26x_red_blocks(
            pointers::items(payload, payload_len),
            pointers::room(blocks, blocks_room),
            pointers::output(count, &mut no_count),
        )
    }
}

#[unsafe(no_mangle)]
pub unsafe extern "C" fn h26x_h264_profile_level(
    profile_level_id: u32,
    profile: *mut u8,
    level: *mut u8,
) -> bool {
    let mut no_profile = MaybeUninit::uninit();
    let mut no_level = MaybeUninit::uninit();
    // SAFETY: a caller owes what the header says.
    unsafe {
        super::profiles::h26x_h264_profile_level(
            profile_level_id,
            pointers::output(profile, &mut no_profile),
            pointers::output(level, &mut no_level),
        )
    }
}

#[unsafe(no_mangle)]
pub extern "C" fn h26x_h265_is_known(profile_id: u8, tier_flag: u8, level_id: u8) -> bool {
    super::profiles::h26x_h265_is_known(profile_id, tier_flag, level_id)
}

#[unsafe(no_mangle)]
pub extern "C" fn h26x_h266_is_known(profile_id: u8, tier_flag: u8, level_id: u8) -> bool {
    super::profiles::h26x_h266_is_known(profile_id, tier_flag, level_id)
}

#[unsafe(no_mangle)]
pub unsafe extern "C" fn h26x_access_units_push_all(
    u: *mut Handle,
    now: u32,
    bytes: *const u8,
    bytes_len: usize,
    payloads: *const RtpPayload,
    payloads_len: usize,
    told: *mut PushTold,
    told_room: usize,
    taken: *mut usize,
) -> u32 {
    let mut no_taken = MaybeUninit::uninit();
    // SAFETY: a caller owes what the header says.
    unsafe {
        super::push_all::h26x_access_units_push_all(
            pointers::lent(u),
            now,
            pointers::items(bytes, bytes_len),
            pointers::items(payloads, payloads_len),
            pointers::room(told, told_room),
            pointers::output(taken, &mut no_taken),
        )
    }
}

#[unsafe(no_mangle)]
pub unsafe extern "C" fn h26x_receive_all(
    r: *mut Handle,
    bytes: *const u8,
    bytes_len: usize,
    payloads: *const RtpPayload,
    payloads_len: usize,
    to: *mut u8,
    room: usize,
    told: *mut ReceivedTold,
    told_room: usize,
    taken: *mut usize,
    written: *mut usize,
) -> u32 {
    let mut no_taken = MaybeUninit::uninit();
    let mut no_written = MaybeUninit::uninit();
    // SAFETY: a caller owes what the header says.
    unsafe {
        super::receive_all::h26x_receive_all(
            pointers::lent(r),
            pointers::items(bytes, bytes_len),
            pointers::items(payloads, payloads_len),
            pointers::room(to, room),
            pointers::room(told, told_room),
            pointers::output(taken, &mut no_taken),
            pointers::output(written, &mut no_written),
        )
    }
}

#[unsafe(no_mangle)]
pub unsafe extern "C" fn h26x_depacketizer_new(codec: u32, numbers: bool, made: *mut Place) -> u32 {
    // SAFETY: a caller owes what the header says.
    unsafe { super::receiving::h26x_depacketizer_new(codec, numbers, pointers::made(made)) }
}

#[unsafe(no_mangle)]
pub unsafe extern "C" fn h26x_depacketizer_clone(d: *const ConstHandle, made: *mut Place) -> u32 {
    // SAFETY: a caller owes what the header says.
    unsafe { super::receiving::h26x_depacketizer_clone(pointers::shared(d), pointers::made(made)) }
}

#[unsafe(no_mangle)]
pub unsafe extern "C" fn h26x_depacketizer_free(d: Handle) {
    if d.ptr.is_null() {
        return;
    }
    super::receiving::h26x_depacketizer_free(d)
}

#[unsafe(no_mangle)]
pub unsafe extern "C" fn h26x_depacketizer_same(
    a: *const ConstHandle,
    b: *const ConstHandle,
) -> bool {
    // SAFETY: a caller owes what the header says.
    unsafe { super::receiving::h26x_depacketizer_same(pointers::shared(a), pointers::shared(b)) }
}

#[unsafe(no_mangle)]
pub unsafe extern "C" fn h26x_depacketizer_set_numbers(d: *mut Handle, numbers: bool) -> u32 {
    // SAFETY: a caller owes what the header says.
    unsafe { super::receiving::h26x_depacketizer_set_numbers(pointers::lent(d), numbers) }
}

#[unsafe(no_mangle)]
pub unsafe extern "C" fn h26x_depacketize(
    d: *mut Handle,
    avc: bool,
    packet: *const u8,
    packet_len: usize,
    to: *mut u8,
    room: usize,
    written: *mut usize,
    extra: *mut u8,
    why: *mut Refusal,
) -> u32 {
    let mut no_written = MaybeUninit::uninit();
    let mut no_extra = 0;
    let mut no_why = MaybeUninit::uninit();
    // SAFETY: a caller owes what the header says.
    unsafe {
        super::receiving::h26x_depacketize(
            pointers::lent(d),
            avc,
            pointers::items(packet, packet_len),
            pointers::room(to, room),
            pointers::output(written, &mut no_written),
            pointers::in_out(extra, &mut no_extra),
            pointers::output(why, &mut no_why),
        )
    }
}

#[unsafe(no_mangle)]
pub unsafe extern "C" fn h26x_written_copy(
    d: *const ConstHandle,
    to: *mut u8,
    room: usize,
) -> usize {
    // SAFETY: a caller owes what the header says.
    unsafe { super::receiving::h26x_written_copy(pointers::shared(d), pointers::room(to, room)) }
}

#[unsafe(no_mangle)]
pub unsafe extern "C" fn h26x_give_up_run(d: *mut Handle) -> u32 {
    // SAFETY: a caller owes what the header says.
    unsafe { super::receiving::h26x_give_up_run(pointers::lent(d)) }
}

#[unsafe(no_mangle)]
pub unsafe extern "C" fn h26x_repairmap_read(
    text: *const u8,
    text_len: usize,
    payload_type: *mut u8,
    format: *mut u32,
) -> u32 {
    let mut no_payload_type = MaybeUninit::uninit();
    let mut no_format = MaybeUninit::uninit();
    // SAFETY: a caller owes what the header says.
    unsafe {
        super::repair::h26x_repairmap_read(
            pointers::items(text, text_len),
            pointers::output(payload_type, &mut no_payload_type),
            pointers::output(format, &mut no_format),
        )
    }
}

#[unsafe(no_mangle)]
pub unsafe extern "C" fn h26x_repairmap_write(
    payload_type: u8,
    format: u32,
    to: *mut u8,
    room: usize,
    len: *mut usize,
) -> u32 {
    let mut no_len = MaybeUninit::uninit();
    // SAFETY: a caller owes what the header says.
    unsafe {
        super::repair::h26x_repairmap_write(
            payload_type,
            format,
            pointers::room(to, room),
            pointers::output(len, &mut no_len),
        )
    }
}

#[unsafe(no_mangle)]
pub unsafe extern "C" fn h26x_rtx_format_read(
    text: *const u8,
    text_len: usize,
    format: *mut RtxNumbers,
    why: *mut Refusal,
) -> u32 {
    let mut no_format = MaybeUninit::uninit();
    let mut no_why = MaybeUninit::uninit();
    // SAFETY: a caller owes what the header says.
    unsafe {
        super::repair::h26x_rtx_format_read(
            pointers::items(text, text_len),
            pointers::output(format, &mut no_format),
            pointers::output(why, &mut no_why),
        )
    }
}

#[unsafe(no_mangle)]
pub unsafe extern "C" fn h26x_rtx_format_write(
    format: *const RtxNumbers,
    to: *mut u8,
    room: usize,
    len: *mut usize,
) -> u32 {
    let mut no_len = MaybeUninit::uninit();
    // SAFETY: a caller owes what the header says.
    unsafe {
        super::repair::h26x_rtx_format_write(
            pointers::shared(format),
            pointers::room(to, room),
            pointers::output(len, &mut no_len),
        )
    }
}

#[unsafe(no_mangle)]
pub unsafe extern "C" fn h26x_pli_write(
    sender: u32,
    media: u32,
    to: *mut u8,
    room: usize,
    len: *mut usize,
) -> u32 {
    let mut no_len = MaybeUninit::uninit();
    // SAFETY: a caller owes what the header says.
    unsafe {
        super::rtcp::h26x_pli_write(
            sender,
            media,
            pointers::room(to, room),
            pointers::output(len, &mut no_len),
        )
    }
}

#[unsafe(no_mangle)]
pub unsafe extern "C" fn h26x_pli_read(
    packet: *const u8,
    packet_len: usize,
    sender: *mut u32,
    media: *mut u32,
) -> bool {
    let mut no_sender = MaybeUninit::uninit();
    let mut no_media = MaybeUninit::uninit();
    // SAFETY: a caller owes what the header says.
    unsafe {
        super::rtcp::h26x_pli_read(
            pointers::items(packet, packet_len),
            pointers::output(sender, &mut no_sender),
            pointers::output(media, &mut no_media),
        )
    }
}

#[unsafe(no_mangle)]
pub unsafe extern "C" fn h26x_fir_write(
    sender: u32,
    media: u32,
    number: u8,
    to: *mut u8,
    room: usize,
    len: *mut usize,
) -> u32 {
    let mut no_len = MaybeUninit::uninit();
    // SAFETY: a caller owes what the header says.
    unsafe {
        super::rtcp::h26x_fir_write(
            sender,
            media,
            number,
            pointers::room(to, room),
            pointers::output(len, &mut no_len),
        )
    }
}

#[unsafe(no_mangle)]
pub unsafe extern "C" fn h26x_fir_read(
    packet: *const u8,
    packet_len: usize,
    sender: *mut u32,
    media: *mut u32,
    number: *mut u8,
) -> bool {
    let mut no_sender = MaybeUninit::uninit();
    let mut no_media = MaybeUninit::uninit();
    let mut no_number = MaybeUninit::uninit();
    // SAFETY: a caller owes what the header says.
    unsafe {
        super::rtcp::h26x_fir_read(
            pointers::items(packet, packet_len),
            pointers::output(sender, &mut no_sender),
            pointers::output(media, &mut no_media),
            pointers::output(number, &mut no_number),
        )
    }
}

#[unsafe(no_mangle)]
pub unsafe extern "C" fn h26x_receiver_report_write(
    sender: u32,
    report: *const Report,
    to: *mut u8,
    room: usize,
    len: *mut usize,
) -> u32 {
    let mut no_len = MaybeUninit::uninit();
    // SAFETY: a caller owes what the header says.
    unsafe {
        super::rtcp::h26x_receiver_report_write(
            sender,
            pointers::shared(report),
            pointers::room(to, room),
            pointers::output(len, &mut no_len),
        )
    }
}

#[unsafe(no_mangle)]
pub unsafe extern "C" fn h26x_receiver_report_read(
    packet: *const u8,
    packet_len: usize,
    sender: *mut u32,
    report: *mut Report,
) -> bool {
    let mut no_sender = MaybeUninit::uninit();
    let mut no_report = MaybeUninit::uninit();
    // SAFETY: a caller owes what the header says.
    unsafe {
        super::rtcp::h26x_receiver_report_read(
            pointers::items(packet, packet_len),
            pointers::output(sender, &mut no_sender),
            pointers::output(report, &mut no_report),
        )
    }
}

#[unsafe(no_mangle)]
pub unsafe extern "C" fn h26x_nack_write(
    sender: u32,
    media: u32,
    numbers: *const u16,
    numbers_len: usize,
    to: *mut u8,
    room: usize,
    len: *mut usize,
    count: *mut usize,
) -> u32 {
    let mut no_len = MaybeUninit::uninit();
    let mut no_count = MaybeUninit::uninit();
    // SAFETY: a caller owes what the header says.
    unsafe {
        super::rtcp::h26x_nack_write(
            sender,
            media,
            pointers::items(numbers, numbers_len),
            pointers::room(to, room),
            pointers::output(len, &mut no_len),
            pointers::output(count, &mut no_count),
        )
    }
}

#[unsafe(no_mangle)]
pub unsafe extern "C" fn h26x_nack_read(
    packet: *const u8,
    packet_len: usize,
    sender: *mut u32,
    media: *mut u32,
    numbers: *mut u16,
    numbers_room: usize,
    count: *mut usize,
) -> bool {
    let mut no_sender = MaybeUninit::uninit();
    let mut no_media = MaybeUninit::uninit();
    let mut no_count = MaybeUninit::uninit();
    // SAFETY: a caller owes what the header says.
    unsafe {
        super::rtcp::h26x_nack_read(
            pointers::items(packet, packet_len),
            pointers::output(sender, &mut no_sender),
            pointers::output(media, &mut no_media),
            pointers::room(numbers, numbers_room),
            pointers::output(count, &mut no_count),
        )
    }
}

#[unsafe(no_mangle)]
pub unsafe extern "C" fn h26x_rtcp_next(
    datagram: *const u8,
    datagram_len: usize,
    from: usize,
    end: *mut usize,
) -> bool {
    let mut no_end = MaybeUninit::uninit();
    // SAFETY: a caller owes what the header says.
    unsafe {
        super::rtcp::h26x_rtcp_next(
            pointers::items(datagram, datagram_len),
            from,
            pointers::output(end, &mut no_end),
        )
    }
}

#[unsafe(no_mangle)]
pub unsafe extern "C" fn h26x_rtp_statistics_receive(
    statistics: *mut Statistics,
    arrival: u32,
    sequence: u16,
    timestamp: u32,
    size: usize,
) -> bool {
    // SAFETY: a caller owes what the header says.
    unsafe {
        super::rtcp::h26x_rtp_statistics_receive(
            pointers::lent(statistics),
            arrival,
            sequence,
            timestamp,
            size,
        )
    }
}

#[unsafe(no_mangle)]
pub unsafe extern "C" fn h26x_rtp_statistics_recover(statistics: *mut Statistics) {
    // SAFETY: a caller owes what the header says.
    unsafe { super::rtcp::h26x_rtp_statistics_recover(pointers::lent(statistics)) }
}

#[unsafe(no_mangle)]
pub unsafe extern "C" fn h26x_rtp_statistics_report(
    statistics: *mut Statistics,
    ssrc: u32,
    last_sender_report: u32,
    delay: u32,
    report: *mut Report,
) {
    let mut no_report = MaybeUninit::uninit();
    // SAFETY: a caller owes what the header says.
    unsafe {
        super::rtcp::h26x_rtp_statistics_report(
            pointers::lent(statistics),
            ssrc,
            last_sender_report,
            delay,
            pointers::output(report, &mut no_report),
        )
    }
}

#[unsafe(no_mangle)]
pub unsafe extern "C" fn h26x_is_rtcp(datagram: *const u8, datagram_len: usize) -> bool {
    // SAFETY: a caller owes what the header says.
    unsafe { super::rtp::h26x_is_rtcp(pointers::items(datagram, datagram_len)) }
}

#[unsafe(no_mangle)]
pub unsafe extern "C" fn h26x_rtp_read(
    datagram: *const u8,
    datagram_len: usize,
    packet: *mut RtpPlaces,
) -> u32 {
    let mut no_packet = MaybeUninit::uninit();
    // SAFETY: a caller owes what the header says.
    unsafe {
        super::rtp::h26x_rtp_read(
            pointers::items(datagram, datagram_len),
            pointers::output(packet, &mut no_packet),
        )
    }
}

#[unsafe(no_mangle)]
pub unsafe extern "C" fn h26x_rtp_original(
    datagram: *const u8,
    datagram_len: usize,
    payload_type: u8,
    ssrc: u32,
    packet: *mut RtpPlaces,
) -> u32 {
    let mut no_packet = MaybeUninit::uninit();
    // SAFETY: a caller owes what the header says.
    unsafe {
        super::rtp::h26x_rtp_original(
            pointers::items(datagram, datagram_len),
            payload_type,
            ssrc,
            pointers::output(packet, &mut no_packet),
        )
    }
}

#[unsafe(no_mangle)]
pub unsafe extern "C" fn h26x_rtp_write(
    header: *const RtpFields,
    csrcs: *const u8,
    csrcs_len: usize,
    extension: *const u8,
    extension_len: usize,
    payload: *const u8,
    payload_len: usize,
    padding: *const u8,
    padding_len: usize,
    to: *mut u8,
    room: usize,
    len: *mut usize,
) -> u32 {
    let mut no_len = MaybeUninit::uninit();
    // SAFETY: a caller owes what the header says.
    unsafe {
        super::rtp::h26x_rtp_write(
            pointers::shared(header),
            pointers::items(csrcs, csrcs_len),
            pointers::items(extension, extension_len),
            pointers::items(payload, payload_len),
            pointers::items(padding, padding_len),
            pointers::room(to, room),
            pointers::output(len, &mut no_len),
        )
    }
}

#[unsafe(no_mangle)]
pub unsafe extern "C" fn h26x_rtp_write_before(
    header: *const RtpFields,
    csrcs: *const u8,
    csrcs_len: usize,
    extension: *const u8,
    extension_len: usize,
    padded: bool,
    place: usize,
    to: *mut u8,
    room: usize,
    len: *mut usize,
) -> u32 {
    let mut no_len = MaybeUninit::uninit();
    // SAFETY: a caller owes what the header says.
    unsafe {
        super::rtp::h26x_rtp_write_before(
            pointers::shared(header),
            pointers::items(csrcs, csrcs_len),
            pointers::items(extension, extension_len),
            padded,
            place,
            pointers::room(to, room),
            pointers::output(len, &mut no_len),
        )
    }
}

#[unsafe(no_mangle)]
pub unsafe extern "C" fn h26x_rtx_write(
    datagram: *const u8,
    datagram_len: usize,
    payload_type: u8,
    sequence: u16,
    ssrc: u32,
    to: *mut u8,
    room: usize,
    len: *mut usize,
) -> u32 {
    let mut no_len = MaybeUninit::uninit();
    // SAFETY: a caller owes what the header says.
    unsafe {
        super::rtp::h26x_rtx_write(
            pointers::items(datagram, datagram_len),
            payload_type,
            sequence,
            ssrc,
            pointers::room(to, room),
            pointers::output(len, &mut no_len),
        )
    }
}

#[unsafe(no_mangle)]
pub unsafe extern "C" fn h26x_red_primary(
    payload: *const u8,
    payload_len: usize,
    payload_type: *mut u8,
    place: *mut usize,
) -> u32 {
    let mut no_payload_type = MaybeUninit::uninit();
    let mut no_place = MaybeUninit::uninit();
    // SAFETY: a caller owes what the header says.
    unsafe {
        super::rtp::h26x_red_primary(
            pointers::items(payload, payload_len),
            pointers::output(payload_type, &mut no_payload_type),
            pointers::output(place, &mut no_place),
        )
    }
}

#[unsafe(no_mangle)]
pub unsafe extern "C" fn h26x_rtpmap_read(
    text: *const u8,
    text_len: usize,
    payload_type: *mut u8,
    codec: *mut u32,
) -> u32 {
    let mut no_payload_type = MaybeUninit::uninit();
    let mut no_codec = MaybeUninit::uninit();
    // SAFETY: a caller owes what the header says.
    unsafe {
        super::rtp_map::h26x_rtpmap_read(
            pointers::items(text, text_len),
            pointers::output(payload_type, &mut no_payload_type),
            pointers::output(codec, &mut no_codec),
        )
    }
}

#[unsafe(no_mangle)]
pub unsafe extern "C" fn h26x_rtpmap_write(
    payload_type: u8,
    codec: u32,
    to: *mut u8,
    room: usize,
    len: *mut usize,
) -> u32 {
    let mut no_len = MaybeUninit::uninit();
    // SAFETY: a caller owes what the header says.
    unsafe {
        super::rtp_map::h26x_rtpmap_write(
            payload_type,
            codec,
            pointers::room(to, room),
            pointers::output(len, &mut no_len),
        )
    }
}

#[unsafe(no_mangle)]
pub unsafe extern "C" fn h26x_fits_single_units(
    payload: *const u8,
    payload_len: usize,
    limit: usize,
) -> bool {
    // SAFETY: a caller owes what the header says.
    unsafe { super::rtp_map::h26x_fits_single_units(pointers::items(payload, payload_len), limit) }
}

#[unsafe(no_mangle)]
pub unsafe extern "C" fn h26x_rtp_receiver_new(
    config: *const Config,
    types: *const PayloadTypes,
    made: *mut Place,
) -> u32 {
    // SAFETY: a caller owes what the header says.
    unsafe {
        super::rtp_receiver::h26x_rtp_receiver_new(
            pointers::shared(config),
            pointers::shared(types),
            pointers::made(made),
        )
    }
}

#[unsafe(no_mangle)]
pub unsafe extern "C" fn h26x_rtp_receiver_free(r: Handle) {
    if r.ptr.is_null() {
        return;
    }
    super::rtp_receiver::h26x_rtp_receiver_free(r)
}

#[unsafe(no_mangle)]
pub unsafe extern "C" fn h26x_rtp_receiver_set_config(
    r: *mut Handle,
    config: *const Config,
) -> u32 {
    // SAFETY: a caller owes what the header says.
    unsafe {
        super::rtp_receiver::h26x_rtp_receiver_set_config(
            pointers::lent(r),
            pointers::shared(config),
        )
    }
}

#[unsafe(no_mangle)]
pub unsafe extern "C" fn h26x_rtp_receiver_follow(r: *mut Handle, sources: *const Sources) -> u32 {
    // SAFETY: a caller owes what the header says.
    unsafe {
        super::rtp_receiver::h26x_rtp_receiver_follow(pointers::lent(r), pointers::shared(sources))
    }
}

#[unsafe(no_mangle)]
pub unsafe extern "C" fn h26x_rtp_receiver_sources(
    r: *const ConstHandle,
    sources: *mut Sources,
) -> u32 {
    let mut no_sources = MaybeUninit::uninit();
    // SAFETY: a caller owes what the header says.
    unsafe {
        super::rtp_receiver::h26x_rtp_receiver_sources(
            pointers::shared(r),
            pointers::output(sources, &mut no_sources),
        )
    }
}

#[unsafe(no_mangle)]
pub unsafe extern "C" fn h26x_rtp_receiver_push(
    r: *mut Handle,
    now: u32,
    arrival: u32,
    datagram: *const u8,
    datagram_len: usize,
    told: *mut DatagramTold,
) -> u32 {
    let mut no_told = MaybeUninit::uninit();
    // SAFETY: a caller owes what the header says.
    unsafe {
        super::rtp_receiver::h26x_rtp_receiver_push(
            pointers::lent(r),
            now,
            arrival,
            pointers::items(datagram, datagram_len),
            pointers::output(told, &mut no_told),
        )
    }
}

#[unsafe(no_mangle)]
pub unsafe extern "C" fn h26x_rtp_receiver_next(
    r: *mut Handle,
    now: u32,
    to: *mut u8,
    room: usize,
    unit: *mut UnitTold,
) -> u32 {
    let mut no_unit = MaybeUninit::uninit();
    // SAFETY: a caller owes what the header says.
    unsafe {
        super::rtp_receiver::h26x_rtp_receiver_next(
            pointers::lent(r),
            now,
            pointers::room(to, room),
            pointers::output(unit, &mut no_unit),
        )
    }
}

#[unsafe(no_mangle)]
pub unsafe extern "C" fn h26x_rtp_receiver_deadline(r: *const ConstHandle, at: *mut u32) -> bool {
    let mut no_at = MaybeUninit::uninit();
    // SAFETY: a caller owes what the header says.
    unsafe {
        super::rtp_receiver::h26x_rtp_receiver_deadline(
            pointers::shared(r),
            pointers::output(at, &mut no_at),
        )
    }
}

#[unsafe(no_mangle)]
pub unsafe extern "C" fn h26x_rtp_receiver_nacks(
    r: *mut Handle,
    now: u32,
    times: *const NackTimes,
    numbers: *mut u16,
    numbers_room: usize,
    count: *mut usize,
) -> u32 {
    let mut no_count = MaybeUninit::uninit();
    // SAFETY: a caller owes what the header says.
    unsafe {
        super::rtp_receiver::h26x_rtp_receiver_nacks(
            pointers::lent(r),
            now,
            pointers::shared(times),
            pointers::room(numbers, numbers_room),
            pointers::output(count, &mut no_count),
        )
    }
}

#[unsafe(no_mangle)]
pub unsafe extern "C" fn h26x_rtp_receiver_keyframe_wanted(
    r: *mut Handle,
    now: u32,
    again: u32,
) -> bool {
    // SAFETY: a caller owes what the header says.
    unsafe { super::rtp_receiver::h26x_rtp_receiver_keyframe_wanted(pointers::lent(r), now, again) }
}

#[unsafe(no_mangle)]
pub unsafe extern "C" fn h26x_rtp_receiver_statistics(
    r: *const ConstHandle,
    counted: *mut Statistics,
) -> u32 {
    let mut no_counted = MaybeUninit::uninit();
    // SAFETY: a caller owes what the header says.
    unsafe {
        super::rtp_receiver::h26x_rtp_receiver_statistics(
            pointers::shared(r),
            pointers::output(counted, &mut no_counted),
        )
    }
}

#[unsafe(no_mangle)]
pub unsafe extern "C" fn h26x_rtp_receiver_report(
    r: *mut Handle,
    last_sender_report: u32,
    delay: u32,
    report: *mut Report,
) -> bool {
    let mut no_report = MaybeUninit::uninit();
    // SAFETY: a caller owes what the header says.
    unsafe {
        super::rtp_receiver::h26x_rtp_receiver_report(
            pointers::lent(r),
            last_sender_report,
            delay,
            pointers::output(report, &mut no_report),
        )
    }
}

#[unsafe(no_mangle)]
pub unsafe extern "C" fn h26x_rtp_receiver_finish(r: *mut Handle) -> u32 {
    // SAFETY: a caller owes what the header says.
    unsafe { super::rtp_receiver::h26x_rtp_receiver_finish(pointers::lent(r)) }
}

#[unsafe(no_mangle)]
pub unsafe extern "C" fn h26x_rtp_receiver_count(
    r: *const ConstHandle,
    counts: *mut Counts,
) -> u32 {
    let mut no_counts = MaybeUninit::uninit();
    // SAFETY: a caller owes what the header says.
    unsafe {
        super::rtp_receiver::h26x_rtp_receiver_count(
            pointers::shared(r),
            pointers::output(counts, &mut no_counts),
        )
    }
}

#[unsafe(no_mangle)]
pub unsafe extern "C" fn h26x_rtp_sender_new(
    streams: *const Streams,
    history: usize,
    made: *mut Place,
) -> u32 {
    // SAFETY: a caller owes what the header says.
    unsafe {
        super::rtp_sender::h26x_rtp_sender_new(
            pointers::shared(streams),
            history,
            pointers::made(made),
        )
    }
}

#[unsafe(no_mangle)]
pub unsafe extern "C" fn h26x_rtp_sender_free(s: Handle) {
    if s.ptr.is_null() {
        return;
    }
    super::rtp_sender::h26x_rtp_sender_free(s)
}

#[unsafe(no_mangle)]
pub unsafe extern "C" fn h26x_rtp_sender_send(
    s: *mut Handle,
    timestamp: u32,
    profile: u16,
    extension: *const u8,
    extension_len: usize,
    headroom: usize,
    packets: *mut u8,
    packets_len: usize,
    ends: *const usize,
    ends_len: usize,
    len: *mut usize,
) -> u32 {
    let mut no_len = MaybeUninit::uninit();
    // SAFETY: a caller owes what the header says.
    unsafe {
        super::rtp_sender::h26x_rtp_sender_send(
            pointers::lent(s),
            timestamp,
            profile,
            pointers::items(extension, extension_len),
            headroom,
            pointers::room(packets, packets_len),
            pointers::items(ends, ends_len),
            pointers::output(len, &mut no_len),
        )
    }
}

#[unsafe(no_mangle)]
pub unsafe extern "C" fn h26x_rtp_sender_resend(
    s: *mut Handle,
    number: u16,
    to: *mut u8,
    room: usize,
    len: *mut usize,
) -> u32 {
    let mut no_len = MaybeUninit::uninit();
    // SAFETY: a caller owes what the header says.
    unsafe {
        super::rtp_sender::h26x_rtp_sender_resend(
            pointers::lent(s),
            number,
            pointers::room(to, room),
            pointers::output(len, &mut no_len),
        )
    }
}

#[unsafe(no_mangle)]
pub unsafe extern "C" fn h26x_rtp_sender_streams(
    s: *const ConstHandle,
    streams: *mut Streams,
) -> u32 {
    let mut no_streams = MaybeUninit::uninit();
    // SAFETY: a caller owes what the header says.
    unsafe {
        super::rtp_sender::h26x_rtp_sender_streams(
            pointers::shared(s),
            pointers::output(streams, &mut no_streams),
        )
    }
}

#[unsafe(no_mangle)]
pub unsafe extern "C" fn h26x_rtp_sender_count(
    s: *const ConstHandle,
    sent: *mut SentCounts,
) -> u32 {
    let mut no_sent = MaybeUninit::uninit();
    // SAFETY: a caller owes what the header says.
    unsafe {
        super::rtp_sender::h26x_rtp_sender_count(
            pointers::shared(s),
            pointers::output(sent, &mut no_sent),
        )
    }
}

#[unsafe(no_mangle)]
pub unsafe extern "C" fn h26x_sdp_read(
    codec: u32,
    text: *const u8,
    text_len: usize,
    made: *mut Place,
    why: *mut Refusal,
) -> u32 {
    let mut no_why = MaybeUninit::uninit();
    // SAFETY: a caller owes what the header says.
    unsafe {
        super::sdp::h26x_sdp_read(
            codec,
            pointers::items(text, text_len),
            pointers::made(made),
            pointers::output(why, &mut no_why),
        )
    }
}

#[unsafe(no_mangle)]
pub unsafe extern "C" fn h26x_sdp_of_payload(
    codec: u32,
    payload: *const u8,
    payload_len: usize,
    made: *mut Place,
) -> u32 {
    // SAFETY: a caller owes what the header says.
    unsafe {
        super::sdp::h26x_sdp_of_payload(
            codec,
            pointers::items(payload, payload_len),
            pointers::made(made),
        )
    }
}

#[unsafe(no_mangle)]
pub unsafe extern "C" fn h26x_sdp_answer(
    offered: *const ConstHandle,
    ours: *const ConstHandle,
    made: *mut Place,
) -> u32 {
    // SAFETY: a caller owes what the header says.
    unsafe {
        super::sdp::h26x_sdp_answer(
            pointers::shared(offered),
            pointers::shared(ours),
            pointers::made(made),
        )
    }
}

#[unsafe(no_mangle)]
pub unsafe extern "C" fn h26x_sdp_answer_any_order(
    offered: *const ConstHandle,
    ours: *const ConstHandle,
    made: *mut Place,
) -> u32 {
    // SAFETY: a caller owes what the header says.
    unsafe {
        super::sdp::h26x_sdp_answer_any_order(
            pointers::shared(offered),
            pointers::shared(ours),
            pointers::made(made),
        )
    }
}

#[unsafe(no_mangle)]
pub unsafe extern "C" fn h26x_sdp_answer_webrtc(
    offered: *const ConstHandle,
    ours: *const ConstHandle,
    any_order: bool,
    made: *mut Place,
) -> u32 {
    // SAFETY: a caller owes what the header says.
    unsafe {
        super::sdp::h26x_sdp_answer_webrtc(
            pointers::shared(offered),
            pointers::shared(ours),
            any_order,
            pointers::made(made),
        )
    }
}

#[unsafe(no_mangle)]
pub unsafe extern "C" fn h26x_sdp_answer_with(
    offered: *const ConstHandle,
    ours: *const ConstHandle,
    options: u32,
    made: *mut Place,
) -> u32 {
    // SAFETY: a caller owes what the header says.
    unsafe {
        super::sdp::h26x_sdp_answer_with(
            pointers::shared(offered),
            pointers::shared(ours),
            options,
            pointers::made(made),
        )
    }
}

#[unsafe(no_mangle)]
pub unsafe extern "C" fn h26x_sdp_broken_rule(
    h: *const ConstHandle,
    options: u32,
    why: *mut Refusal,
) -> u32 {
    let mut no_why = MaybeUninit::uninit();
    // SAFETY: a caller owes what the header says.
    unsafe {
        super::sdp::h26x_sdp_broken_rule(
            pointers::shared(h),
            options,
            pointers::output(why, &mut no_why),
        )
    }
}

#[unsafe(no_mangle)]
pub unsafe extern "C" fn h26x_sdp_name(
    h: *const ConstHandle,
    i: usize,
    to: *mut u8,
    room: usize,
    len: *mut usize,
) -> u32 {
    let mut no_len = MaybeUninit::uninit();
    // SAFETY: a caller owes what the header says.
    unsafe {
        super::sdp::h26x_sdp_name(
            pointers::shared(h),
            i,
            pointers::room(to, room),
            pointers::output(len, &mut no_len),
        )
    }
}

#[unsafe(no_mangle)]
pub unsafe extern "C" fn h26x_sdp_free(h: Handle) {
    if h.ptr.is_null() {
        return;
    }
    super::sdp::h26x_sdp_free(h)
}

#[unsafe(no_mangle)]
pub unsafe extern "C" fn h26x_sdp_codec(h: *const ConstHandle) -> u32 {
    // SAFETY: a caller owes what the header says.
    unsafe { super::sdp::h26x_sdp_codec(pointers::shared(h)) }
}

#[unsafe(no_mangle)]
pub unsafe extern "C" fn h26x_sdp_write(
    h: *const ConstHandle,
    to: *mut u8,
    room: usize,
    len: *mut usize,
) -> u32 {
    let mut no_len = MaybeUninit::uninit();
    // SAFETY: a caller owes what the header says.
    unsafe {
        super::sdp::h26x_sdp_write(
            pointers::shared(h),
            pointers::room(to, room),
            pointers::output(len, &mut no_len),
        )
    }
}

#[unsafe(no_mangle)]
pub unsafe extern "C" fn h26x_sdp_set(
    h: *mut Handle,
    name: *const u8,
    name_len: usize,
    value: *const u8,
    value_len: usize,
) -> u32 {
    // SAFETY: a caller owes what the header says.
    unsafe {
        super::sdp::h26x_sdp_set(
            pointers::lent(h),
            pointers::items(name, name_len),
            pointers::items(value, value_len),
        )
    }
}

#[unsafe(no_mangle)]
pub unsafe extern "C" fn h26x_sdp_unset(h: *mut Handle, name: *const u8, name_len: usize) -> u32 {
    // SAFETY: a caller owes what the header says.
    unsafe { super::sdp::h26x_sdp_unset(pointers::lent(h), pointers::items(name, name_len)) }
}

#[unsafe(no_mangle)]
pub unsafe extern "C" fn h26x_sdp_value(
    h: *const ConstHandle,
    name: *const u8,
    name_len: usize,
    or_default: bool,
    to: *mut u8,
    room: usize,
    len: *mut usize,
) -> u32 {
    let mut no_len = MaybeUninit::uninit();
    // SAFETY: a caller owes what the header says.
    unsafe {
        super::sdp::h26x_sdp_value(
            pointers::shared(h),
            pointers::items(name, name_len),
            or_default,
            pointers::room(to, room),
            pointers::output(len, &mut no_len),
        )
    }
}

#[unsafe(no_mangle)]
pub unsafe extern "C" fn h26x_sdp_number(
    h: *const ConstHandle,
    name: *const u8,
    name_len: usize,
    or_default: bool,
    value: *mut u64,
) -> u32 {
    let mut no_value = MaybeUninit::uninit();
    // SAFETY: a caller owes what the header says.
    unsafe {
        super::sdp::h26x_sdp_number(
            pointers::shared(h),
            pointers::items(name, name_len),
            or_default,
            pointers::output(value, &mut no_value),
        )
    }
}

#[unsafe(no_mangle)]
pub unsafe extern "C" fn h26x_sdp_units(
    h: *const ConstHandle,
    name: *const u8,
    name_len: usize,
    count: *mut usize,
    why: *mut Refusal,
) -> u32 {
    let mut no_count = MaybeUninit::uninit();
    let mut no_why = MaybeUninit::uninit();
    // SAFETY: a caller owes what the header says.
    unsafe {
        super::sdp::h26x_sdp_units(
            pointers::shared(h),
            pointers::items(name, name_len),
            pointers::output(count, &mut no_count),
            pointers::output(why, &mut no_why),
        )
    }
}

#[unsafe(no_mangle)]
pub unsafe extern "C" fn h26x_sdp_unit(
    h: *const ConstHandle,
    name: *const u8,
    name_len: usize,
    i: usize,
    to: *mut u8,
    room: usize,
    len: *mut usize,
    why: *mut Refusal,
) -> u32 {
    let mut no_len = MaybeUninit::uninit();
    let mut no_why = MaybeUninit::uninit();
    // SAFETY: a caller owes what the header says.
    unsafe {
        super::sdp::h26x_sdp_unit(
            pointers::shared(h),
            pointers::items(name, name_len),
            i,
            pointers::room(to, room),
            pointers::output(len, &mut no_len),
            pointers::output(why, &mut no_why),
        )
    }
}

#[unsafe(no_mangle)]
pub unsafe extern "C" fn h26x_sdp_other(
    h: *const ConstHandle,
    i: usize,
    name_to: *mut u8,
    name_room: usize,
    name_len: *mut usize,
    value_to: *mut u8,
    value_room: usize,
    value_len: *mut usize,
) -> u32 {
    let mut no_name_len = MaybeUninit::uninit();
    let mut no_value_len = MaybeUninit::uninit();
    // SAFETY: a caller owes what the header says.
    unsafe {
        super::sdp::h26x_sdp_other(
            pointers::shared(h),
            i,
            pointers::room(name_to, name_room),
            pointers::output(name_len, &mut no_name_len),
            pointers::room(value_to, value_room),
            pointers::output(value_len, &mut no_value_len),
        )
    }
}

#[unsafe(no_mangle)]
pub unsafe extern "C" fn h26x_sdp_max_don_diff(h: *const ConstHandle, value: *mut u32) -> u32 {
    let mut no_value = MaybeUninit::uninit();
    // SAFETY: a caller owes what the header says.
    unsafe {
        super::sdp::h26x_sdp_max_don_diff(
            pointers::shared(h),
            pointers::output(value, &mut no_value),
        )
    }
}

#[unsafe(no_mangle)]
pub unsafe extern "C" fn h26x_sdp_constraints(
    h: *const ConstHandle,
    to: *mut u8,
    room: usize,
    said: *mut ConstraintNumbers,
) -> u32 {
    let mut no_said = MaybeUninit::uninit();
    // SAFETY: a caller owes what the header says.
    unsafe {
        super::sdp::h26x_sdp_constraints(
            pointers::shared(h),
            pointers::room(to, room),
            pointers::output(said, &mut no_said),
        )
    }
}

#[unsafe(no_mangle)]
pub unsafe extern "C" fn h26x_sdp_capability_points(
    h: *const ConstHandle,
    or_default: bool,
    points: *mut PointNumbers,
    points_room: usize,
    count: *mut usize,
    why: *mut Refusal,
) -> u32 {
    let mut no_count = MaybeUninit::uninit();
    let mut no_why = MaybeUninit::uninit();
    // SAFETY: a caller owes what the header says.
    unsafe {
        super::sdp::h26x_sdp_capability_points(
            pointers::shared(h),
            or_default,
            pointers::room(points, points_room),
            pointers::output(count, &mut no_count),
            pointers::output(why, &mut no_why),
        )
    }
}

#[unsafe(no_mangle)]
pub unsafe extern "C" fn h26x_packetizer_new(codec: u32, numbers: bool, made: *mut Place) -> u32 {
    // SAFETY: a caller owes what the header says.
    unsafe { super::sending::h26x_packetizer_new(codec, numbers, pointers::made(made)) }
}

#[unsafe(no_mangle)]
pub unsafe extern "C" fn h26x_packetizer_clone(p: *const ConstHandle, made: *mut Place) -> u32 {
    // SAFETY: a caller owes what the header says.
    unsafe { super::sending::h26x_packetizer_clone(pointers::shared(p), pointers::made(made)) }
}

#[unsafe(no_mangle)]
pub unsafe extern "C" fn h26x_packetizer_free(p: Handle) {
    if p.ptr.is_null() {
        return;
    }
    super::sending::h26x_packetizer_free(p)
}

#[unsafe(no_mangle)]
pub unsafe extern "C" fn h26x_packetizer_set_numbers(p: *mut Handle, numbers: bool) -> u32 {
    // SAFETY: a caller owes what the header says.
    unsafe { super::sending::h26x_packetizer_set_numbers(pointers::lent(p), numbers) }
}

#[unsafe(no_mangle)]
pub unsafe extern "C" fn h26x_packetizer_set_max_size(p: *mut Handle, bytes: u16) -> u32 {
    // SAFETY: a caller owes what the header says.
    unsafe { super::sending::h26x_packetizer_set_max_size(pointers::lent(p), bytes) }
}

#[unsafe(no_mangle)]
pub unsafe extern "C" fn h26x_packetizer_set_lowest_header(p: *mut Handle, lowest: bool) -> u32 {
    // SAFETY: a caller owes what the header says.
    unsafe { super::sending::h26x_packetizer_set_lowest_header(pointers::lent(p), lowest) }
}

#[unsafe(no_mangle)]
pub unsafe extern "C" fn h26x_packetize(
    p: *mut Handle,
    mtu: usize,
    payload: *const u8,
    payload_len: usize,
    count: *mut usize,
) -> u32 {
    let mut no_count = MaybeUninit::uninit();
    // SAFETY: a caller owes what the header says.
    unsafe {
        super::sending::h26x_packetize(
            pointers::lent(p),
            mtu,
            pointers::items(payload, payload_len),
            pointers::output(count, &mut no_count),
        )
    }
}

#[unsafe(no_mangle)]
pub unsafe extern "C" fn h26x_packetize_unit(
    p: *mut Handle,
    mtu: usize,
    unit: *const u8,
    unit_len: usize,
    count: *mut usize,
) -> u32 {
    let mut no_count = MaybeUninit::uninit();
    // SAFETY: a caller owes what the header says.
    unsafe {
        super::sending::h26x_packetize_unit(
            pointers::lent(p),
            mtu,
            pointers::items(unit, unit_len),
            pointers::output(count, &mut no_count),
        )
    }
}

#[unsafe(no_mangle)]
pub unsafe extern "C" fn h26x_packets_size(
    p: *const ConstHandle,
    mtu: usize,
    payload: *const u8,
    payload_len: usize,
    headroom: usize,
    count: *mut usize,
    size: *mut usize,
) -> u32 {
    let mut no_count = MaybeUninit::uninit();
    let mut no_size = MaybeUninit::uninit();
    // SAFETY: a caller owes what the header says.
    unsafe {
        super::sending::h26x_packets_size(
            pointers::shared(p),
            mtu,
            pointers::items(payload, payload_len),
            headroom,
            pointers::output(count, &mut no_count),
            pointers::output(size, &mut no_size),
        )
    }
}

#[unsafe(no_mangle)]
pub unsafe extern "C" fn h26x_packetize_into(
    p: *mut Handle,
    mtu: usize,
    payload: *const u8,
    payload_len: usize,
    headroom: usize,
    to: *mut u8,
    room: usize,
    ends: *mut usize,
    ends_room: usize,
    count: *mut usize,
    size: *mut usize,
) -> u32 {
    let mut no_count = MaybeUninit::uninit();
    let mut no_size = MaybeUninit::uninit();
    // SAFETY: a caller owes what the header says.
    unsafe {
        super::sending::h26x_packetize_into(
            pointers::lent(p),
            mtu,
            pointers::items(payload, payload_len),
            headroom,
            pointers::room(to, room),
            pointers::room(ends, ends_room),
            pointers::output(count, &mut no_count),
            pointers::output(size, &mut no_size),
        )
    }
}

#[unsafe(no_mangle)]
pub unsafe extern "C" fn h26x_packetize_unit_into(
    p: *mut Handle,
    mtu: usize,
    unit: *const u8,
    unit_len: usize,
    headroom: usize,
    to: *mut u8,
    room: usize,
    ends: *mut usize,
    ends_room: usize,
    count: *mut usize,
    size: *mut usize,
) -> u32 {
    let mut no_count = MaybeUninit::uninit();
    let mut no_size = MaybeUninit::uninit();
    // SAFETY: a caller owes what the header says.
    unsafe {
        super::sending::h26x_packetize_unit_into(
            pointers::lent(p),
            mtu,
            pointers::items(unit, unit_len),
            headroom,
            pointers::room(to, room),
            pointers::room(ends, ends_room),
            pointers::output(count, &mut no_count),
            pointers::output(size, &mut no_size),
        )
    }
}

#[unsafe(no_mangle)]
pub unsafe extern "C" fn h26x_packet_count(p: *const ConstHandle) -> usize {
    // SAFETY: a caller owes what the header says.
    unsafe { super::sending::h26x_packet_count(pointers::shared(p)) }
}

#[unsafe(no_mangle)]
pub unsafe extern "C" fn h26x_packet_len(p: *const ConstHandle, i: usize) -> usize {
    // SAFETY: a caller owes what the header says.
    unsafe { super::sending::h26x_packet_len(pointers::shared(p), i) }
}

#[unsafe(no_mangle)]
pub unsafe extern "C" fn h26x_packets_len(p: *const ConstHandle) -> usize {
    // SAFETY: a caller owes what the header says.
    unsafe { super::sending::h26x_packets_len(pointers::shared(p)) }
}

#[unsafe(no_mangle)]
pub unsafe extern "C" fn h26x_packet_copy(
    p: *const ConstHandle,
    i: usize,
    to: *mut u8,
    room: usize,
) -> usize {
    // SAFETY: a caller owes what the header says.
    unsafe { super::sending::h26x_packet_copy(pointers::shared(p), i, pointers::room(to, room)) }
}

#[unsafe(no_mangle)]
pub unsafe extern "C" fn h26x_packets_copy(
    p: *const ConstHandle,
    first: usize,
    to: *mut u8,
    room: usize,
    ends: *mut usize,
    ends_room: usize,
) -> usize {
    // SAFETY: a caller owes what the header says.
    unsafe {
        super::sending::h26x_packets_copy(
            pointers::shared(p),
            first,
            pointers::room(to, room),
            pointers::room(ends, ends_room),
        )
    }
}

#[unsafe(no_mangle)]
pub unsafe extern "C" fn h26x_receiver_new(
    codec: u32,
    numbers: bool,
    avc: bool,
    run_limit: usize,
    made: *mut Place,
) -> u32 {
    // SAFETY: a caller owes what the header says.
    unsafe {
        super::sequenced::h26x_receiver_new(codec, numbers, avc, run_limit, pointers::made(made))
    }
}

#[unsafe(no_mangle)]
pub unsafe extern "C" fn h26x_receiver_clone(r: *const ConstHandle, made: *mut Place) -> u32 {
    // SAFETY: a caller owes what the header says.
    unsafe { super::sequenced::h26x_receiver_clone(pointers::shared(r), pointers::made(made)) }
}

#[unsafe(no_mangle)]
pub unsafe extern "C" fn h26x_receiver_free(r: Handle) {
    if r.ptr.is_null() {
        return;
    }
    super::sequenced::h26x_receiver_free(r)
}

#[unsafe(no_mangle)]
pub unsafe extern "C" fn h26x_receiver_set_numbers(r: *mut Handle, numbers: bool) -> u32 {
    // SAFETY: a caller owes what the header says.
    unsafe { super::sequenced::h26x_receiver_set_numbers(pointers::lent(r), numbers) }
}

#[unsafe(no_mangle)]
pub unsafe extern "C" fn h26x_receiver_set_avc(r: *mut Handle, avc: bool) -> u32 {
    // SAFETY: a caller owes what the header says.
    unsafe { super::sequenced::h26x_receiver_set_avc(pointers::lent(r), avc) }
}

#[unsafe(no_mangle)]
pub unsafe extern "C" fn h26x_receive(
    r: *mut Handle,
    sequence: u16,
    packet: *const u8,
    packet_len: usize,
    to: *mut u8,
    room: usize,
    written: *mut usize,
    extra: *mut u8,
    received: *mut u32,
    count: *mut u16,
    why: *mut Refusal,
) -> u32 {
    let mut no_written = MaybeUninit::uninit();
    let mut no_extra = 0;
    let mut no_received = MaybeUninit::uninit();
    let mut no_count = MaybeUninit::uninit();
    let mut no_why = MaybeUninit::uninit();
    // SAFETY: a caller owes what the header says.
    unsafe {
        super::sequenced::h26x_receive(
            pointers::lent(r),
            sequence,
            pointers::items(packet, packet_len),
            pointers::room(to, room),
            pointers::output(written, &mut no_written),
            pointers::in_out(extra, &mut no_extra),
            pointers::output(received, &mut no_received),
            pointers::output(count, &mut no_count),
            pointers::output(why, &mut no_why),
        )
    }
}

#[unsafe(no_mangle)]
pub unsafe extern "C" fn h26x_receiver_skip(
    r: *mut Handle,
    sequence: u16,
    received: *mut u32,
    count: *mut u16,
) -> u32 {
    let mut no_received = MaybeUninit::uninit();
    let mut no_count = MaybeUninit::uninit();
    // SAFETY: a caller owes what the header says.
    unsafe {
        super::sequenced::h26x_receiver_skip(
            pointers::lent(r),
            sequence,
            pointers::output(received, &mut no_received),
            pointers::output(count, &mut no_count),
        )
    }
}

#[unsafe(no_mangle)]
pub unsafe extern "C" fn h26x_receiver_restart(r: *mut Handle) -> u32 {
    // SAFETY: a caller owes what the header says.
    unsafe { super::sequenced::h26x_receiver_restart(pointers::lent(r)) }
}

#[unsafe(no_mangle)]
pub unsafe extern "C" fn h26x_receiver_run_len(r: *const ConstHandle) -> usize {
    // SAFETY: a caller owes what the header says.
    unsafe { super::sequenced::h26x_receiver_run_len(pointers::shared(r)) }
}

#[unsafe(no_mangle)]
pub unsafe extern "C" fn h26x_h265_shown(d: *const ConstHandle, shown: *mut Shown) -> u32 {
    let mut no_shown = MaybeUninit::uninit();
    // SAFETY: a caller owes what the header says.
    unsafe {
        super::shown::h26x_h265_shown(pointers::shared(d), pointers::output(shown, &mut no_shown))
    }
}

#[unsafe(no_mangle)]
pub unsafe extern "C" fn h26x_h265_part_copy(
    d: *const ConstHandle,
    i: usize,
    to: *mut u8,
    room: usize,
    number: *mut u32,
) -> usize {
    let mut no_number = MaybeUninit::uninit();
    // SAFETY: a caller owes what the header says.
    unsafe {
        super::shown::h26x_h265_part_copy(
            pointers::shared(d),
            i,
            pointers::room(to, room),
            pointers::output(number, &mut no_number),
        )
    }
}

#[unsafe(no_mangle)]
pub unsafe extern "C" fn h26x_access_units_so_far(
    u: *const ConstHandle,
    from: usize,
    to: *mut u8,
    room: usize,
    so_far: *mut SoFarTold,
) -> bool {
    let mut no_so_far = MaybeUninit::uninit();
    // SAFETY: a caller owes what the header says.
    unsafe {
        super::so_far::h26x_access_units_so_far(
            pointers::shared(u),
            from,
            pointers::room(to, room),
            pointers::output(so_far, &mut no_so_far),
        )
    }
}

#[unsafe(no_mangle)]
pub unsafe extern "C" fn h26x_rtp_receiver_so_far(
    r: *const ConstHandle,
    from: usize,
    to: *mut u8,
    room: usize,
    so_far: *mut SoFarTold,
) -> bool {
    let mut no_so_far = MaybeUninit::uninit();
    // SAFETY: a caller owes what the header says.
    unsafe {
        super::so_far::h26x_rtp_receiver_so_far(
            pointers::shared(r),
            from,
            pointers::room(to, room),
            pointers::output(so_far, &mut no_so_far),
        )
    }
}

#[unsafe(no_mangle)]
pub unsafe extern "C" fn h26x_sdp_agreed(
    own: *const ConstHandle,
    other: *const ConstHandle,
    options: u32,
    sends: *mut StreamNumbers,
    receives: *mut StreamNumbers,
) -> u32 {
    let mut no_sends = MaybeUninit::uninit();
    let mut no_receives = MaybeUninit::uninit();
    // SAFETY: a caller owes what the header says.
    unsafe {
        super::streams::h26x_sdp_agreed(
            pointers::shared(own),
            pointers::shared(other),
            options,
            pointers::output(sends, &mut no_sends),
            pointers::output(receives, &mut no_receives),
        )
    }
}

#[unsafe(no_mangle)]
pub unsafe extern "C" fn h26x_sdp_accepts_declared(
    declared: *const ConstHandle,
    ours: *const ConstHandle,
    options: u32,
) -> u32 {
    // SAFETY: a caller owes what the header says.
    unsafe {
        super::streams::h26x_sdp_accepts_declared(
            pointers::shared(declared),
            pointers::shared(ours),
            options,
        )
    }
}

#[unsafe(no_mangle)]
pub unsafe extern "C" fn h26x_sdp_level_unit(
    h: *const ConstHandle,
    level: u64,
    i: usize,
    to: *mut u8,
    room: usize,
    len: *mut usize,
    why: *mut Refusal,
) -> u32 {
    let mut no_len = MaybeUninit::uninit();
    let mut no_why = MaybeUninit::uninit();
    // SAFETY: a caller owes what the header says.
    unsafe {
        super::streams::h26x_sdp_level_unit(
            pointers::shared(h),
            level,
            i,
            pointers::room(to, room),
            pointers::output(len, &mut no_len),
            pointers::output(why, &mut no_why),
        )
    }
}

#[unsafe(no_mangle)]
pub unsafe extern "C" fn h26x_next_unit(
    codec: u32,
    payload: *const u8,
    payload_len: usize,
    from: usize,
    begin: *mut usize,
    end: *mut usize,
) -> bool {
    let mut no_begin = MaybeUninit::uninit();
    let mut no_end = MaybeUninit::uninit();
    // SAFETY: a caller owes what the header says.
    unsafe {
        super::units::h26x_next_unit(
            codec,
            pointers::items(payload, payload_len),
            from,
            pointers::output(begin, &mut no_begin),
            pointers::output(end, &mut no_end),
        )
    }
}

#[unsafe(no_mangle)]
pub unsafe extern "C" fn h26x_next_avc_unit(
    text: *const u8,
    text_len: usize,
    from: usize,
    begin: *mut usize,
    end: *mut usize,
) -> bool {
    let mut no_begin = MaybeUninit::uninit();
    let mut no_end = MaybeUninit::uninit();
    // SAFETY: a caller owes what the header says.
    unsafe {
        super::units::h26x_next_avc_unit(
            pointers::items(text, text_len),
            from,
            pointers::output(begin, &mut no_begin),
            pointers::output(end, &mut no_end),
        )
    }
}

#[unsafe(no_mangle)]
pub unsafe extern "C" fn h26x_unit_is_plain(codec: u32, unit: *const u8, unit_len: usize) -> bool {
    // SAFETY: a caller owes what the header says.
    unsafe { super::units::h26x_unit_is_plain(codec, pointers::items(unit, unit_len)) }
}
