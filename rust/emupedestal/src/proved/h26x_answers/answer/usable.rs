// Made from crates/h26x_answers/src/answer/usable.rt by tools/to-rust.

//! What is usable of a format in the direction of who writes it, and what stands in place of the rest.

use crate::proved::h26x_answers::answer::{
    AnswerConfig, CodecRules, Role, copy_of, copy_of_others,
};
use crate::proved::h26x_answers::direction::{Direction, Usage, is_usable};
use crate::proved::h26x_fmtp::FormatParameters;
use crate::proved::h26x_sdp::CodecParameters;
use crate::support::AllocError;
use crate::support::TryVec;
use alloc::vec::Vec;

/// What stands in place of a value that isn't usable.
fn unsent(reorders: bool, role: Role) -> Option<&'static [u8]> {
    match role {
        Role::Reordering if reorders => Some(b"0"),
        _ => None,
    }
}

/// A value, or what stands in its place.
fn usable_value(
    direction: Direction,
    reorders: bool,
    role: Role,
    usage: Usage,
    value: &Option<Vec<u8>>,
) -> Option<&[u8]> {
    if !is_usable(direction, usage) {
        return unsent(reorders, role);
    }
    match value {
        Some(value) => Some(value.as_slice()),
        None => None,
    }
}

/// The values that are usable in a direction.
fn usable_values(
    direction: Direction,
    reorders: bool,
    roles: &[Role],
    usages: &[Usage],
    it: &FormatParameters,
) -> Result<Vec<Option<Vec<u8>>>, AllocError> {
    let mut values = Vec::new();
    for place in 0..roles.len() {
        let (role, usage) = (roles[place], usages[place]);
        let value = usable_value(direction, reorders, role, usage, &it.values[place]);
        values.try_push(copy_of(value)?)?;
    }
    Ok(values)
}

/// What is usable of a format in a direction, where units are sent in another order than decoded or
/// aren't.
fn usable_where<P: CodecRules>(
    direction: Direction,
    reorders: bool,
    it: &CodecParameters<P>,
) -> Result<CodecParameters<P>, AllocError> {
    let all = it.parameters();
    let parameters = FormatParameters {
        values: usable_values(direction, reorders, P::roles(), P::usages(), all)?,
        others: copy_of_others(all.others.as_slice())?,
    };
    Ok(CodecParameters::of_parameters(parameters))
}

/// What is usable of a format in the answer's direction; both ways all of it is.
pub(crate) fn usable<P: CodecRules>(
    config: AnswerConfig,
    it: CodecParameters<P>,
) -> Result<CodecParameters<P>, AllocError> {
    match config.direction {
        Direction::SendRecv => Ok(it),
        direction => usable_where(direction, false, &it),
    }
}

/// A format as it's heard in one direction: what is usable of it, and in interleaved mode that an end
/// which sends no units sends none out of order.
pub(crate) fn heard<P: CodecRules>(
    direction: Direction,
    it: &CodecParameters<P>,
) -> Result<CodecParameters<P>, AllocError> {
    let usable = usable_where(direction, false, it)?;
    if P::reorders(&usable) {
        usable_where(direction, true, it)
    } else {
        Ok(usable)
    }
}
