// Made from crates/h26x_endpoint/src/lib.rt by tools/to-rust.

//! What stands behind a handle of the C library: an endpoint of a stream, or format parameters of SDP.
pub mod endpoint;
