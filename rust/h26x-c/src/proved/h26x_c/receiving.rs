// Made from crates/h26x_c/src/receiving.rt by tools/to-rust.

//! The calls of a depacketizer.

use crate::proved::h26x_c::const_handle::ConstHandle;
use crate::proved::h26x_c::handle::Handle;
use crate::proved::h26x_c::place::{Place, put};
use crate::proved::h26x_codes::code::{
    NOT_OF_THIS_CODEC, OK, OUT_OF_MEMORY, Refusal, WRONG_END, code_of, codec_wanted, extra_of,
    may_have_donl, number_of,
};
use crate::proved::h26x_codes::copy::copy_where_room;
use crate::proved::h26x_depacketizer::RunDepacketizer;
use crate::proved::h26x_endpoint::endpoint::Endpoint;
use crate::proved::h26x_handles::receiving::ReceivingEndpoint;
use core::mem::MaybeUninit;

/// Makes a depacketizer with no run open.
pub fn h26x_depacketizer_new(codec: u32, numbers: bool, made: &mut MaybeUninit<Place>) -> u32 {
    match codec_wanted(codec, numbers) {
        Ok(codec) => put(
            Endpoint::Receiving(ReceivingEndpoint::new(codec, numbers)),
            made,
        ),
        Err(code) => code,
    }
}

/// Makes a depacketizer again, without what its last packet completed.
pub fn h26x_depacketizer_clone(d: &ConstHandle, made: &mut MaybeUninit<Place>) -> u32 {
    let copy = match d.get() {
        Endpoint::Receiving(it) => it.try_clone(),
        _ => return WRONG_END,
    };
    match copy {
        Ok(copy) => put(Endpoint::Receiving(copy), made),
        Err(_) => OUT_OF_MEMORY,
    }
}

/// Frees a depacketizer.
pub fn h26x_depacketizer_free(d: Handle) {
    drop(d.into_box());
}

/// Whether two depacketizers are the same.
pub fn h26x_depacketizer_same(a: &ConstHandle, b: &ConstHandle) -> bool {
    match (a.get(), b.get()) {
        (Endpoint::Receiving(a), Endpoint::Receiving(b)) => a.depacketizer.is_same(&b.depacketizer),
        _ => false,
    }
}

/// Sets whether packets bear decoding order numbers.
pub fn h26x_depacketizer_set_numbers(d: &mut Handle, numbers: bool) -> u32 {
    match d.get_mut() {
        Endpoint::Receiving(it) => {
            if !may_have_donl(it.depacketizer.codec()) {
                return NOT_OF_THIS_CODEC;
            }
            it.depacketizer.with_donl(numbers);
            OK
        }
        _ => WRONG_END,
    }
}

/// Takes a packet, and writes what it completes, behind lengths or behind start codes, where there is
/// room for it.
pub fn h26x_depacketize(
    d: &mut Handle,
    is_avc: bool,
    packet: &[u8],
    to: &mut [u8],
    written: &mut MaybeUninit<usize>,
    extra: &mut u8,
    why: &mut MaybeUninit<Refusal>,
) -> u32 {
    written.write(0);
    let Endpoint::Receiving(it) = d.get_mut() else {
        return WRONG_END;
    };
    let codec = it.depacketizer.codec();
    let mut told = extra_of(codec, *extra);
    match it.depacketize(is_avc, packet, to, written, &mut told) {
        Ok(()) => {
            *extra = number_of(told);
            OK
        }
        Err(error) => code_of(error, why),
    }
}

/// Copies what the last packet that was taken completed and had no room for, where there is room for
/// it now; its length.
pub fn h26x_written_copy(d: &ConstHandle, to: &mut [u8]) -> usize {
    match d.get() {
        Endpoint::Receiving(it) => copy_where_room(it.written(), to),
        Endpoint::Sequenced(it) => copy_where_room(it.written(), to),
        _ => copy_where_room(&[], to),
    }
}

/// Gives up the open run and its buffer.
pub fn h26x_give_up_run(d: &mut Handle) -> u32 {
    match d.get_mut() {
        Endpoint::Receiving(it) => {
            it.depacketizer.give_up_run();
            OK
        }
        _ => WRONG_END,
    }
}
