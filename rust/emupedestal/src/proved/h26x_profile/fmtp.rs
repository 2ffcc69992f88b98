// Made from crates/h26x_profile/src/fmtp.rt by tools/to-rust.

//! Parameters of a format in SDP.

use alloc::string::String;
#[cfg(feature = "std")]
use std::collections::HashMap;

/// The byte that the parameter of this name has, if it is there and std reads its text as a `u8`.
#[cfg(feature = "std")]
pub(crate) fn byte_of(params: &HashMap<String, String>, name: &str) -> Option<u8> {
    params.get(name)?.parse().ok()
}
