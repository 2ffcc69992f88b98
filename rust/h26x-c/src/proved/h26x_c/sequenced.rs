// Made from crates/h26x_c/src/sequenced.rt by tools/to-rust.

//! The calls of a receiver of packets with their sequence numbers.

use crate::proved::h26x_c::const_handle::ConstHandle;
use crate::proved::h26x_c::handle::Handle;
use crate::proved::h26x_c::place::{Place, put};
use crate::proved::h26x_codes::code::{
    NOT_OF_THIS_CODEC, OK, OUT_OF_MEMORY, Refusal, WRONG_END, code_of, codec_wanted, extra_of,
    may_have_donl, number_of, numbers_of,
};
use crate::proved::h26x_endpoint::endpoint::Endpoint;
use crate::proved::h26x_handles::sequenced::SequencedEndpoint;
use core::mem::MaybeUninit;

/// Makes a receiver that takes any sequence number as the first.
pub fn h26x_receiver_new(
    codec: u32,
    numbers: bool,
    is_avc: bool,
    run_limit: usize,
    made: &mut MaybeUninit<Place>,
) -> u32 {
    match codec_wanted(codec, numbers) {
        Ok(codec) => put(
            Endpoint::Sequenced(SequencedEndpoint::new(codec, numbers, is_avc, run_limit)),
            made,
        ),
        Err(code) => code,
    }
}

/// Makes a receiver again, without what its last packet completed.
pub fn h26x_receiver_clone(r: &ConstHandle, made: &mut MaybeUninit<Place>) -> u32 {
    let copy = match r.get() {
        Endpoint::Sequenced(it) => it.try_clone(),
        _ => return WRONG_END,
    };
    match copy {
        Ok(copy) => put(Endpoint::Sequenced(copy), made),
        Err(_) => OUT_OF_MEMORY,
    }
}

/// Frees a receiver.
pub fn h26x_receiver_free(r: Handle) {
    drop(r.into_box());
}

/// Sets whether packets bear decoding order numbers.
pub fn h26x_receiver_set_numbers(r: &mut Handle, numbers: bool) -> u32 {
    match r.get_mut() {
        Endpoint::Sequenced(it) => {
            if !may_have_donl(it.depacketizer().codec()) {
                return NOT_OF_THIS_CODEC;
            }
            it.with_donl(numbers);
            OK
        }
        _ => WRONG_END,
    }
}

/// Sets whether units are written behind lengths or behind start codes.
pub fn h26x_receiver_set_avc(r: &mut Handle, is_avc: bool) -> u32 {
    match r.get_mut() {
        Endpoint::Sequenced(it) => {
            it.set_avc(is_avc);
            OK
        }
        _ => WRONG_END,
    }
}

/// Takes a packet with its sequence number, and writes what it completes where there is room for it.
pub fn h26x_receive(
    r: &mut Handle,
    sequence: u16,
    packet: &[u8],
    to: &mut [u8],
    written: &mut MaybeUninit<usize>,
    extra: &mut u8,
    received: &mut MaybeUninit<u32>,
    count: &mut MaybeUninit<u16>,
    why: &mut MaybeUninit<Refusal>,
) -> u32 {
    written.write(0);
    let Endpoint::Sequenced(it) = r.get_mut() else {
        return WRONG_END;
    };
    let mut told = extra_of(it.depacketizer().codec(), *extra);
    match it.receive(sequence, packet, to, written, &mut told) {
        Ok(what) => {
            if what.is_taken() {
                *extra = number_of(told);
            }
            {
                let values = numbers_of(what);
                received.write(values.0);
                count.write(values.1);
            }
            OK
        }
        Err(error) => code_of(error, why),
    }
}

/// Passes over a number that came and bears nothing of the stream.
pub fn h26x_receiver_skip(
    r: &mut Handle,
    sequence: u16,
    received: &mut MaybeUninit<u32>,
    count: &mut MaybeUninit<u16>,
) -> u32 {
    match r.get_mut() {
        Endpoint::Sequenced(it) => {
            {
                let values = numbers_of(it.skip(sequence));
                received.write(values.0);
                count.write(values.1);
            }
            OK
        }
        _ => WRONG_END,
    }
}

/// Gives up the open run, and takes any sequence number as the next.
pub fn h26x_receiver_restart(r: &mut Handle) -> u32 {
    match r.get_mut() {
        Endpoint::Sequenced(it) => {
            it.restart();
            OK
        }
        _ => WRONG_END,
    }
}

/// How many bytes the open run holds.
pub fn h26x_receiver_run_len(r: &ConstHandle) -> usize {
    match r.get() {
        Endpoint::Sequenced(it) => it.run_len(),
        _ => 0,
    }
}
