// Made from crates/h26x_sdp_handles/src/answer_options.rt by tools/to-rust.

//! How an answerer answers, as the bits of a number.

use crate::proved::h26x_answers::{AnswerConfig, AnswerRules, Direction};

/// The rules by which it answers.
fn rules_of(webrtc: bool) -> AnswerRules {
    if webrtc {
        AnswerRules::Webrtc
    } else {
        AnswerRules::Rfc
    }
}

/// The direction of a number.
fn direction_of(number: u32) -> Option<Direction> {
    match number {
        0 => Some(Direction::SendRecv),
        1 => Some(Direction::SendOnly),
        2 => Some(Direction::RecvOnly),
        _ => None,
    }
}

/// The options of a number; none where it has a bit that no option has, or asks for both directions.
pub fn config_of(options: u32) -> Option<AnswerConfig> {
    if options >= 32 {
        return None;
    }
    match direction_of(options / 4 % 4) {
        Some(direction) => Some(AnswerConfig {
            any_order: options % 2 == 1,
            rules: rules_of(options / 2 % 2 == 1),
            direction,
            multicast: options / 16 == 1,
        }),
        None => None,
    }
}
