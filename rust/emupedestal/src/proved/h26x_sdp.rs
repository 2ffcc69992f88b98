// Made from crates/h26x_sdp/src/lib.rt by tools/to-rust.

//! Format parameters of SDP of H.264, H.265 and H.266 (RFC 6184, section 8.1; RFC 7798, section 7.1;
//! RFC 9328, section 7.2), read and written by the table of them, and the values with a grammar of
//! their own.
//!
//! The definitions that contracts cite stand in `specs/`.
mod capability_points;
mod codec;
mod constraints;
mod error;
mod h264;
mod h265;
mod h266;
mod level_sets;
mod rtx;

pub(crate) use capability_points::write_capability_points;
pub use capability_points::{CapabilityPoint, ParallelTool, read_capability_points};
pub use codec::{CodecParameter, CodecParameters};
pub use constraints::{InteropConstraints, constraints_len, has_general};
pub use error::{CapabilityPointsError, ConstraintsError, LevelSetsError, RtxError};
pub use h264::{H264Parameter, H264Parameters};
pub use h265::{H265Parameter, H265Parameters};
pub use h266::{H266Parameter, H266Parameters};
pub(crate) use level_sets::write_level_sets;
pub use level_sets::{LevelSets, read_level_sets};
pub use rtx::RtxFormat;
