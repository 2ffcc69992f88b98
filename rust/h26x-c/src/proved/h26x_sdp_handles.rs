// Made from crates/h26x_sdp_handles/src/lib.rt by tools/to-rust.

//! What stands behind a handle of the C library that has format parameters of SDP: with their codec,
//! and with the units in them, read once; and the numbers by which calls on them answer.
pub mod answer_options;
mod changed_parameters;
pub mod kept_parameters;
pub mod level_units;
pub mod repair;
pub mod sdp;
pub mod sdp_code;
pub mod sdp_parameter;
pub mod sdp_values;
pub mod streams;
