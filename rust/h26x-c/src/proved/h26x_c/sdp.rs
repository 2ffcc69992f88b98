// Made from crates/h26x_c/src/sdp.rt by tools/to-rust.

//! The calls on format parameters of SDP.

use crate::proved::h26x_answers::{AnswerConfig, AnswerRules, Direction};
use crate::proved::h26x_c::const_handle::ConstHandle;
use crate::proved::h26x_c::copied::copy_out;
use crate::proved::h26x_c::handle::Handle;
use crate::proved::h26x_c::place::{Place, put};
use crate::proved::h26x_codes::code::{
    NO_ROOM, OK, OUT_OF_MEMORY, OUT_OF_RANGE, Refusal, UNKNOWN_CODEC, WRONG_END, codec_of,
};
use crate::proved::h26x_codes::copy::{copy_first, copy_where_room};
use crate::proved::h26x_endpoint::endpoint::Endpoint;
use crate::proved::h26x_sdp_handles::answer_options::config_of;
use crate::proved::h26x_sdp_handles::sdp::SdpEndpoint;
use crate::proved::h26x_sdp_handles::sdp_code::{
    ABSENT, PointRefused, Refused, number_of_codec, of_format_fault, point_refused_with,
    refused_with,
};
use crate::proved::h26x_sdp_handles::sdp_values::{ConstraintNumbers, PointNumbers};
use core::mem::MaybeUninit;

/// Tells the place of a refusal; its code.
pub(crate) fn tell(refused: Refused, why: &mut MaybeUninit<Refusal>) -> u32 {
    why.write(Refusal {
        first: refused.place,
        second: 0,
    });
    refused.code
}

/// Tells the place of a capability point that is refused, and what is wrong there; its code.
fn tell_of_point(point: PointRefused, why: &mut MaybeUninit<Refusal>) -> u32 {
    why.write(Refusal {
        first: point.place,
        second: point.fault as usize,
    });
    point.code
}

/// Makes format parameters of what stands behind the payload type in an `a=fmtp` line.
pub fn h26x_sdp_read(
    codec: u32,
    text: &[u8],
    made: &mut MaybeUninit<Place>,
    why: &mut MaybeUninit<Refusal>,
) -> u32 {
    let Some(codec) = codec_of(codec) else {
        return UNKNOWN_CODEC;
    };
    match SdpEndpoint::read(codec, text) {
        Ok(it) => put(Endpoint::Sdp(it), made),
        Err(it) => tell(it, why),
    }
}

/// Makes the parameters that a sender says of a stream, of the bytes that it begins with.
pub fn h26x_sdp_of_payload(codec: u32, payload: &[u8], made: &mut MaybeUninit<Place>) -> u32 {
    let Some(codec) = codec_of(codec) else {
        return UNKNOWN_CODEC;
    };
    match SdpEndpoint::of_payload(codec, payload) {
        Ok(it) => put(Endpoint::Sdp(it), made),
        Err(code) => code,
    }
}

/// Makes the answer to an offered format by one of ours, of what the answerer takes.
fn answered(
    config: AnswerConfig,
    offered: &ConstHandle,
    ours: &ConstHandle,
    made: &mut MaybeUninit<Place>,
) -> u32 {
    let (Endpoint::Sdp(offered), Endpoint::Sdp(ours)) = (offered.get(), ours.get()) else {
        return WRONG_END;
    };
    match offered.answer(config, ours) {
        Ok(it) => put(Endpoint::Sdp(it), made),
        Err(code) => code,
    }
}

/// Makes the answer to an offered format by one of ours, whose units are sent as they are decoded.
pub fn h26x_sdp_answer(
    offered: &ConstHandle,
    ours: &ConstHandle,
    made: &mut MaybeUninit<Place>,
) -> u32 {
    let config = AnswerConfig {
        any_order: false,
        rules: AnswerRules::Rfc,
        direction: Direction::SendRecv,
        multicast: false,
    };
    answered(config, offered, ours, made)
}

/// The same of units in any order.
pub fn h26x_sdp_answer_any_order(
    offered: &ConstHandle,
    ours: &ConstHandle,
    made: &mut MaybeUninit<Place>,
) -> u32 {
    let config = AnswerConfig {
        any_order: true,
        rules: AnswerRules::Rfc,
        direction: Direction::SendRecv,
        multicast: false,
    };
    answered(config, offered, ours, made)
}

/// The same as WebRTC's peers do it, of units in decoding order or in any.
pub fn h26x_sdp_answer_webrtc(
    offered: &ConstHandle,
    ours: &ConstHandle,
    any_order: bool,
    made: &mut MaybeUninit<Place>,
) -> u32 {
    let config = AnswerConfig {
        any_order,
        rules: AnswerRules::Webrtc,
        direction: Direction::SendRecv,
        multicast: false,
    };
    answered(config, offered, ours, made)
}

/// The same by options.
pub fn h26x_sdp_answer_with(
    offered: &ConstHandle,
    ours: &ConstHandle,
    options: u32,
    made: &mut MaybeUninit<Place>,
) -> u32 {
    match config_of(options) {
        Some(config) => answered(config, offered, ours, made),
        None => OUT_OF_RANGE,
    }
}

/// The first rule that they break as a format of one's own, by which they give no answer.
pub fn h26x_sdp_broken_rule(h: &ConstHandle, options: u32, why: &mut MaybeUninit<Refusal>) -> u32 {
    let Some(config) = config_of(options) else {
        return tell(refused_with(OUT_OF_RANGE), why);
    };
    let Endpoint::Sdp(it) = h.get() else {
        return tell(refused_with(WRONG_END), why);
    };
    match it.own_fault(config) {
        Some(fault) => tell(of_format_fault(fault), why),
        None => OK,
    }
}

/// The name of the parameter at a place of the RFC's table, where there is room.
pub fn h26x_sdp_name(
    h: &ConstHandle,
    i: usize,
    to: &mut [u8],
    len: &mut MaybeUninit<usize>,
) -> u32 {
    let Endpoint::Sdp(it) = h.get() else {
        return WRONG_END;
    };
    match it.name(i) {
        Some(name) => copy_out(name, to, len),
        None => ABSENT,
    }
}

/// Frees format parameters.
pub fn h26x_sdp_free(h: Handle) {
    drop(h.into_box());
}

/// The number of their codec.
pub fn h26x_sdp_codec(h: &ConstHandle) -> u32 {
    match h.get() {
        Endpoint::Sdp(it) => number_of_codec(it.codec()),
        _ => 0,
    }
}

/// Writes them, where there is room.
pub fn h26x_sdp_write(h: &ConstHandle, to: &mut [u8], len: &mut MaybeUninit<usize>) -> u32 {
    let Endpoint::Sdp(it) = h.get() else {
        return WRONG_END;
    };
    match it.write() {
        Ok(text) => copy_out(text.as_slice(), to, len),
        Err(_) => OUT_OF_MEMORY,
    }
}

/// Gives the parameter with a name a value, in the place of the one that it has.
pub fn h26x_sdp_set(h: &mut Handle, name: &[u8], value: &[u8]) -> u32 {
    let Endpoint::Sdp(it) = h.get_mut() else {
        return WRONG_END;
    };
    match it.with_value(name, value) {
        Ok(made) => {
            *it = made;
            OK
        }
        Err(code) => code,
    }
}

/// Takes away the value of the parameter with a name, if it has one.
pub fn h26x_sdp_unset(h: &mut Handle, name: &[u8]) -> u32 {
    let Endpoint::Sdp(it) = h.get_mut() else {
        return WRONG_END;
    };
    match it.without_value(name) {
        Ok(made) => {
            *it = made;
            OK
        }
        Err(code) => code,
    }
}

/// The value of the parameter with a name, or where it's absent what the RFC takes for it, where there
/// is room.
pub fn h26x_sdp_value(
    h: &ConstHandle,
    name: &[u8],
    or_default: bool,
    to: &mut [u8],
    len: &mut MaybeUninit<usize>,
) -> u32 {
    let Endpoint::Sdp(it) = h.get() else {
        return WRONG_END;
    };
    match it.value(name, or_default) {
        Ok(value) => copy_out(value, to, len),
        Err(code) => code,
    }
}

/// The number of the parameter with a name, or where it's absent that of what the RFC takes for it.
pub fn h26x_sdp_number(
    h: &ConstHandle,
    name: &[u8],
    or_default: bool,
    value: &mut MaybeUninit<u64>,
) -> u32 {
    let Endpoint::Sdp(it) = h.get() else {
        return WRONG_END;
    };
    match it.number(name, or_default) {
        Ok(number) => {
            value.write(number);
            OK
        }
        Err(code) => code,
    }
}

/// How many units the parameter with a name has.
pub fn h26x_sdp_units(
    h: &ConstHandle,
    name: &[u8],
    count: &mut MaybeUninit<usize>,
    why: &mut MaybeUninit<Refusal>,
) -> u32 {
    let Endpoint::Sdp(it) = h.get() else {
        return tell(refused_with(WRONG_END), why);
    };
    match it.units(name) {
        Ok(units) => {
            count.write(units.len());
            OK
        }
        Err(it) => tell(it, why),
    }
}

/// A unit of the parameter with a name, counted from 0, where there is room.
pub fn h26x_sdp_unit(
    h: &ConstHandle,
    name: &[u8],
    i: usize,
    to: &mut [u8],
    len: &mut MaybeUninit<usize>,
    why: &mut MaybeUninit<Refusal>,
) -> u32 {
    let Endpoint::Sdp(it) = h.get() else {
        return tell(refused_with(WRONG_END), why);
    };
    match it.units(name) {
        Ok(units) => match units.get(i) {
            Some(unit) => copy_out(unit.as_slice(), to, len),
            None => ABSENT,
        },
        Err(it) => tell(it, why),
    }
}

/// The name and the value of a parameter that the RFC doesn't have, counted from 0, where there is room
/// for both.
pub fn h26x_sdp_other(
    h: &ConstHandle,
    i: usize,
    name_to: &mut [u8],
    name_len: &mut MaybeUninit<usize>,
    value_to: &mut [u8],
    value_len: &mut MaybeUninit<usize>,
) -> u32 {
    let Endpoint::Sdp(it) = h.get() else {
        return WRONG_END;
    };
    let Some(other) = it.others().get(i) else {
        return ABSENT;
    };
    name_len.write(other.name.len());
    value_len.write(other.value.len());
    if other.name.len() > name_to.len() || other.value.len() > value_to.len() {
        return NO_ROOM;
    }
    copy_where_room(other.name.as_slice(), name_to);
    copy_where_room(other.value.as_slice(), value_to);
    OK
}

/// What packetizers and receivers of H.265 and H.266 are configured for.
pub fn h26x_sdp_max_don_diff(h: &ConstHandle, value: &mut MaybeUninit<u32>) -> u32 {
    let Endpoint::Sdp(it) = h.get() else {
        return WRONG_END;
    };
    match it.max_don_diff() {
        Ok(most) => {
            value.write(most);
            OK
        }
        Err(code) => code,
    }
}

/// What `interop-constraints` says, or where it's absent what the RFC takes for it, and its first
/// bytes, as many as there is room for.
pub fn h26x_sdp_constraints(
    h: &ConstHandle,
    to: &mut [u8],
    said: &mut MaybeUninit<ConstraintNumbers>,
) -> u32 {
    let Endpoint::Sdp(it) = h.get() else {
        return WRONG_END;
    };
    match it.constraints() {
        Ok(constraints) => {
            copy_first(constraints.as_bytes(), to);
            said.write(constraints.numbers());
            OK
        }
        Err(code) => code,
    }
}

/// The first capability points of `dec-parallel-cap`, as many as there is room for, each as it
/// stands, or with the limits that it leaves out; and how many they all are.
pub fn h26x_sdp_capability_points(
    h: &ConstHandle,
    or_default: bool,
    points: &mut [PointNumbers],
    count: &mut MaybeUninit<usize>,
    why: &mut MaybeUninit<Refusal>,
) -> u32 {
    let Endpoint::Sdp(it) = h.get() else {
        return tell_of_point(point_refused_with(WRONG_END), why);
    };
    match it.capability_points(or_default, points) {
        Ok(all) => {
            count.write(all);
            OK
        }
        Err(refused) => tell_of_point(refused, why),
    }
}
