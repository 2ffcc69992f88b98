// Made from crates/h26x_codes/src/lib.rt by tools/to-rust.

pub mod code;
pub mod copy;
