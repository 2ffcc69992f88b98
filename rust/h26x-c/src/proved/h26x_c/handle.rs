// Made from crates/h26x_c/src/handle.rt by tools/to-rust.

//! What C holds of an endpoint: the pointer of a box.

mod lends;

use crate::proved::h26x_endpoint::endpoint::Endpoint;
use alloc::boxed::Box;

/// A handle, which owns the endpoint behind it.
#[repr(C)]
pub struct Handle {
    pub(super) ptr: *mut (),
}

/// What may go to another thread.
trait GoesToAnotherThread: Send {}

// An endpoint may, and so may its handle.
impl GoesToAnotherThread for Endpoint {}

unsafe impl Send for Handle {}

impl Handle {
    /// The box whose pointer it is.
    pub fn into_box(self) -> Box<Endpoint> {
        let Handle { ptr } = self;
        unsafe { Box::from_raw(ptr as *mut Endpoint) }
    }
}
