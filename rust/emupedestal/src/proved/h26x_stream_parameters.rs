// Made from crates/h26x_stream_parameters/src/lib.rt by tools/to-rust.

mod error;
mod from_stream;
mod single_units;
mod unescaped;

pub use error::StreamError;
pub use from_stream::{
    h264_of_payload, h264_of_units, h265_of_payload, h265_of_units, h266_of_payload, h266_of_units,
};
pub use single_units::fits_single_units;
