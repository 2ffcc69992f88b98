// Made from crates/h26x_c/src/handle/lends.rt by tools/to-rust.

//! The loan of what a handle holds.

use super::Handle;
use crate::proved::h26x_endpoint::endpoint::Endpoint;

impl Handle {
    /// What it holds.
    pub fn get_mut(&mut self) -> &mut Endpoint {
        unsafe { &mut *(self.ptr as *mut Endpoint) }
    }
}
