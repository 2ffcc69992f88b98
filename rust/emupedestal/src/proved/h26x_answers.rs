// Made from crates/h26x_answers/src/lib.rt by tools/to-rust.

//! Answers to offers of formats of H.264, H.265 and H.266 (RFC 3264, section 6; RFC 6184, section
//! 8.2.2; RFC 7798, section 7.2.2; RFC 9328, section 7.3.2).
//!
//! The definitions that contracts cite stand in `specs/`.
mod agreed;
mod answer;
mod declared;
mod direction;
mod fault;

pub use agreed::{Agreed, AgreedSets, AgreedStream, CodecStreams, agreed_streams};
pub(crate) use answer::answer_format;
pub use answer::h264::sets_of_level;
pub use answer::{AnswerConfig, AnswerRules, CodecRules, Role, Terms, own_fault};
pub use declared::{CodecDeclared, accepts_declared};
pub use direction::{Direction, Usage};
pub use fault::FormatFault;
