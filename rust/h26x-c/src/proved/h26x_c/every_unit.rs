// Made from crates/h26x_c/src/every_unit.rt by tools/to-rust.

//! The calls of a packetizer where every unit goes.

use crate::proved::h26x_c::const_handle::ConstHandle;
use crate::proved::h26x_c::handle::Handle;
use crate::proved::h26x_codes::code::{
    OK, OUT_OF_RANGE, Refusal, WRONG_END, code_of_placement, code_of_units, packing_of,
};
use crate::proved::h26x_endpoint::endpoint::Endpoint;
use crate::proved::h26x_handles::settings::SendingSettings;
use core::mem::MaybeUninit;

/// Sets which units of an access unit share packets.
pub fn h26x_packetizer_set_packing(p: &mut Handle, packing: u32) -> u32 {
    let Endpoint::Sending(it) = p.get_mut() else {
        return WRONG_END;
    };
    match packing_of(packing) {
        Some(packing) => {
            it.set(SendingSettings {
                packing,
                ..it.settings()
            });
            OK
        }
        None => OUT_OF_RANGE,
    }
}

/// Sets whether access unit delimiters and filler data go where every unit goes.
pub fn h26x_packetizer_set_delimiters(p: &mut Handle, delimiters: bool) -> u32 {
    match p.get_mut() {
        Endpoint::Sending(it) => {
            it.set(SendingSettings {
                delimiters,
                ..it.settings()
            });
            OK
        }
        _ => WRONG_END,
    }
}

/// Makes the packets of the units of an access unit in Annex B form, of which none is left out but
/// delimiters and filler where that is set; they take the place of the last call's, and the sets that
/// wait stay. The first unit that can't go is named.
pub fn h26x_packetize_units(
    p: &mut Handle,
    mtu: usize,
    access_unit: &[u8],
    count: &mut MaybeUninit<usize>,
    why: &mut MaybeUninit<Refusal>,
) -> u32 {
    match p.get_mut() {
        Endpoint::Sending(it) => {
            let made = it.packetize_units(mtu, access_unit);
            count.write(it.count());
            match made {
                Ok(()) => OK,
                Err(error) => code_of_units(error, why),
            }
        }
        _ => {
            count.write(0);
            WRONG_END
        }
    }
}

/// How many packets there are of the units of an access unit, and how many bytes they take in memory,
/// each behind `headroom`. Nothing changes.
pub fn h26x_units_size(
    p: &ConstHandle,
    mtu: usize,
    access_unit: &[u8],
    headroom: usize,
    count: &mut MaybeUninit<usize>,
    size: &mut MaybeUninit<usize>,
    why: &mut MaybeUninit<Refusal>,
) -> u32 {
    count.write(0);
    size.write(0);
    let made = match p.get() {
        Endpoint::Sending(it) => it.units_size(mtu, access_unit, headroom),
        _ => return WRONG_END,
    };
    match made {
        Ok(taken) => {
            count.write(taken.packets);
            size.write(taken.bytes);
            OK
        }
        Err(error) => code_of_units(error, why),
    }
}

/// Copies the packets of the units of an access unit straight to memory where they fit, each behind
/// `headroom` bytes that stay, and writes where each ends; else nothing is done. The packets of the
/// last call stay.
pub fn h26x_packetize_units_into(
    p: &mut Handle,
    mtu: usize,
    access_unit: &[u8],
    headroom: usize,
    to: &mut [u8],
    ends: &mut [usize],
    count: &mut MaybeUninit<usize>,
    size: &mut MaybeUninit<usize>,
    why: &mut MaybeUninit<Refusal>,
) -> u32 {
    count.write(0);
    size.write(0);
    let Endpoint::Sending(it) = p.get_mut() else {
        return WRONG_END;
    };
    match it.packetize_units_to_memory(mtu, access_unit, headroom, to, ends) {
        Ok(made) => code_of_placement(Ok(made), count, size),
        Err(error) => code_of_units(error, why),
    }
}
