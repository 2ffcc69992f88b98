// Made from crates/h26x_c/src/copied.rt by tools/to-rust.

//! Copies that tell whether there was room.

use crate::proved::h26x_codes::code::{NO_ROOM, OK};
use crate::proved::h26x_codes::copy::copy_where_room;
use core::mem::MaybeUninit;

/// Copies bytes to the front of a buffer, where there is room for them, and tells how many they are.
pub fn copy_out(bytes: &[u8], to: &mut [u8], len: &mut MaybeUninit<usize>) -> u32 {
    let code = if bytes.len() <= to.len() { OK } else { NO_ROOM };
    len.write(copy_where_room(bytes, to));
    code
}
