//! Payload types and format parameters of SDP: what stands in an `a=rtpmap` line, and behind the payload type in an
//! `a=fmtp` line (RFC 6184, section 8; RFC 7798, section 7; RFC 9328, section 7).
//!
//! ```
//! use emupedestal::sdp::{H264Parameter, H264Parameters, PacketizationMode, RtpMap};
//! use emupedestal::{Codec, H264Profile};
//!
//! let map: RtpMap = "96 H264/90000".parse()?;
//! assert_eq!((map.payload_type(), map.codec()), (96, Codec::H264));
//!
//! let offered = "level-asymmetry-allowed=1; packetization-mode=1; Profile-Level-ID=42e01f; x=1";
//! let mut format: H264Parameters = offered.parse()?;
//! assert_eq!(format.packetization_mode(), PacketizationMode::NonInterleaved);
//! assert_eq!(format.profile_level().map(|it| it.profile()), Some(H264Profile::ConstrainedBaseline));
//! assert_eq!(format.sar_understood(), 13); // what the RFC takes where it is absent
//!
//! format.set(H264Parameter::ProfileLevelId, "42e015")?;
//! let text = "profile-level-id=42e015;level-asymmetry-allowed=1;packetization-mode=1;x=1";
//! assert_eq!(format.to_string(), text);
//! # Ok::<(), Box<dyn std::error::Error>>(())
//! ```
//!
//! [`RepairMap`] and [`RtxFormat`] are of what goes beside video: RTX, RED and FEC.
//!
//! [`CodecParameters::answer`] and [`Format::answer_to`] answer an offer (RFC 3264, section 6), and
//! [`H264Parameters::of_payload`](CodecParameters::of_payload), and the same of the others, is what a sender says of its
//! stream. For what depends on it, `packetization-mode` 0 needs [`fits_single_units`], and `sprop-max-don-diff` goes to
//! [`CodecPacketizer::configure_for`](crate::CodecPacketizer::configure_for).
//!
//! What is read: names without regard to case, white space round `;` and `=`, parts that are blank, a `;` inside
//! braces; each value is looked at by what the RFC says of it, and what the RFC doesn't have is kept. What is
//! written: the RFC's parameters in its order, and the others behind them. It is read as the same parameters, for
//! all parameters, which is proved of the sources; the types here are written by hand around them.
//!
//! The first fault is told with the place of its parameter ([`ParametersError`]).

mod agreed;
mod answer;
mod fault;
mod from_stream;
mod getters;
mod h264;
mod h265;
mod h266;
mod modes;
mod parameters;
mod repair;
mod rtp_map;
#[cfg(feature = "serde")]
mod stored;
mod typed;

pub use crate::proved::h26x_fmtp::{Fault, ParametersError, RepairFormat, RtpMapError, UnitsError};
pub use crate::proved::h26x_sdp::{
    CapabilityPoint, CapabilityPointsError, H264Parameter, H265Parameter, H266Parameter, LevelSets,
    ParallelTool,
};
pub use crate::proved::h26x_sdp::{ConstraintsError, LevelSetsError, RtxError};
pub use crate::proved::h26x_stream_parameters::{StreamError, fits_single_units};
pub use agreed::{Agreed, AgreedSets, AgreedStream};
pub use answer::{AnswerConfig, AnswerRules, Direction, Format, OutOfMemory};
pub use fault::{BrokenRule, SetError};
pub use h264::H264Parameters;
pub use h265::H265Parameters;
pub use h266::H266Parameters;
pub use modes::{PacketizationMode, TxMode};
pub use parameters::{CodecParameters, Parameter, read_units, write_units};
pub use repair::{RepairMap, RtxFormat};
pub use rtp_map::RtpMap;
pub use typed::{
    InteropConstraints, read_capability_points, read_level_sets, write_capability_points,
    write_level_sets,
};
