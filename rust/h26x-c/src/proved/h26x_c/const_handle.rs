// Made from crates/h26x_c/src/const_handle.rt by tools/to-rust.

//! What C holds of an endpoint that a call only looks at.

use crate::proved::h26x_endpoint::endpoint::Endpoint;

/// A handle behind C's `const`. Its endpoint is lent, so that no call changes it meanwhile.
#[repr(C)]
pub struct ConstHandle {
    ptr: *mut (),
}

// Threads may look at an end at once, and so at its handle.
unsafe impl Send for ConstHandle {}

unsafe impl Sync for ConstHandle {}

impl ConstHandle {
    /// What it holds.
    pub fn get(&self) -> &Endpoint {
        unsafe { &*(self.ptr as *const Endpoint) }
    }
}
