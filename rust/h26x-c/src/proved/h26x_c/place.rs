// Made from crates/h26x_c/src/place.rt by tools/to-rust.

//! Where a call writes a handle.

use crate::proved::h26x_codes::code::{OK, OUT_OF_MEMORY};
use crate::proved::h26x_endpoint::endpoint::Endpoint;
use alloc::boxed::Box;
use core::mem::MaybeUninit;

/// A handle that is yet to be written, or was.
#[repr(C)]
pub struct Place {
    ptr: *mut (),
}

impl Place {
    /// The handle of a box, which is not freed here.
    pub(crate) fn of(boxed: Box<Endpoint>) -> Place {
        let ptr = Box::into_raw(boxed);
        Place {
            ptr: ptr as *mut (),
        }
    }
}

/// Puts an endpoint behind a new handle.
pub fn put(end: Endpoint, made: &mut MaybeUninit<Place>) -> u32 {
    let Ok(boxed) = crate::pointers::try_box(end) else {
        return OUT_OF_MEMORY;
    };
    made.write(Place::of(boxed));
    OK
}
