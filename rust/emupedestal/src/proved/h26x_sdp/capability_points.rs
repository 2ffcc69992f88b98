// Made from crates/h26x_sdp/src/capability_points.rt by tools/to-rust.

//! What a decoder of H.265 can do where pictures are coded for parallel decoding: the value of
//! `dec-parallel-cap`.

use crate::proved::h26x_fmtp::kind::{BITS_8, BITS_32, BITS_64, FLAG};
use crate::proved::h26x_fmtp::{
    Fault, FormatParameters, ParameterRow, ParametersError, cut, number_in, parameters, same_name,
    split_piece, trimmed,
};
use crate::proved::h26x_sdp::codec::{CodecParameter, CodecParameters};
use crate::proved::h26x_sdp::error::CapabilityPointsError;
use crate::support::AllocError;
use crate::support::{AppendBytes, TryVec};
use alloc::vec::Vec;

/// How pictures are coded for parallel decoding: whether wavefronts are used
/// (entropy_coding_sync_enabled_flag).
#[derive(Debug, Clone, Copy, PartialEq, Eq, Hash)]
pub enum ParallelTool {
    /// `w`: they are.
    Wavefronts,
    /// `t`: they aren't; tiles or slices are.
    NoWavefronts,
}

/// What a decoder can do where a stream is coded for parallel decoding, beyond what it can do with any
/// (RFC 7798, section 7.1). At least one limit is given; one that isn't is as it is said of any stream.
#[derive(Debug, Clone, Copy, PartialEq, Eq, Hash)]
pub struct CapabilityPoint {
    /// The tool that the stream uses.
    pub tool: ParallelTool,
    /// The least min_spatial_segmentation_idc that it has, from 1 to 4095.
    pub spatial_segmentation: u64,
    /// The tier: 0 Main tier, 1 High tier.
    pub tier_flag: Option<u64>,
    /// The highest level, 30 times the level, up to 255.
    pub level_id: Option<u64>,
    /// The most luma samples in a second.
    pub max_lsr: Option<u64>,
    /// The most luma samples of a picture, up to 4294967295.
    pub max_lps: Option<u64>,
    /// The highest bit rate, in units of CpbBrVclFactor or CpbBrNalFactor bits a second.
    pub max_br: Option<u64>,
}

/// A limit of a point, in the order in which they are written.
#[derive(Debug, Clone, Copy, PartialEq, Eq)]
pub(crate) enum Limit {
    TierFlag,
    LevelId,
    MaxLsr,
    MaxLps,
    MaxBr,
}

/// The limits of the table.
static ROWS: [ParameterRow; 5] = [
    ParameterRow {
        name: b"tier-flag",
        kind: FLAG,
        default: None,
    },
    ParameterRow {
        name: b"level-id",
        kind: BITS_8,
        default: None,
    },
    ParameterRow {
        name: b"max-lsr",
        kind: BITS_64,
        default: None,
    },
    ParameterRow {
        name: b"max-lps",
        kind: BITS_32,
        default: None,
    },
    ParameterRow {
        name: b"max-br",
        kind: BITS_64,
        default: None,
    },
];

impl CodecParameter for Limit {
    fn rows() -> &'static [ParameterRow] {
        &ROWS
    }

    fn place(self) -> usize {
        self as usize
    }
}

impl ParallelTool {
    /// The tool of a name, without regard to case.
    pub fn of_name(name: &[u8]) -> Option<ParallelTool> {
        if same_name(b"w", name) {
            Some(ParallelTool::Wavefronts)
        } else if same_name(b"t", name) {
            Some(ParallelTool::NoWavefronts)
        } else {
            None
        }
    }

    /// Its name.
    pub fn name(self) -> &'static str {
        match self {
            ParallelTool::Wavefronts => "w",
            ParallelTool::NoWavefronts => "t",
        }
    }
}

/// What stands between the braces that a text begins and ends with.
fn in_braces(text: &[u8]) -> Option<&[u8]> {
    let len = text.len();
    if len < 2 || text[0] != b'{' || text[len - 1] != b'}' {
        return None;
    }
    Some(&text[1..len - 1])
}

/// spatial-seg-idc: a number from 1 to 4095.
fn segmentation_in(text: &[u8]) -> Result<u64, Fault> {
    match number_in(text) {
        Ok(number) if 1 <= number && number <= 4095 => Ok(number),
        Ok(_) => Err(Fault::OutOfRange),
        Err(fault) => Err(fault),
    }
}

/// A point at a place that has a limit.
fn limited(place: usize, point: CapabilityPoint) -> Result<CapabilityPoint, CapabilityPointsError> {
    if point.tier_flag.is_some()
        || point.level_id.is_some()
        || point.max_lsr.is_some()
        || point.max_lps.is_some()
        || point.max_br.is_some()
    {
        Ok(point)
    } else {
        Err(CapabilityPointsError::NoLimit { place })
    }
}

/// The point of a tool and a segmentation, with the limits of a text.
fn with_limits(
    place: usize,
    tool: ParallelTool,
    spatial_segmentation: u64,
    text: &[u8],
) -> Result<CapabilityPoint, CapabilityPointsError> {
    match CodecParameters::<Limit>::read(text) {
        Ok(limits) => limited(
            place,
            CapabilityPoint {
                tool,
                spatial_segmentation,
                tier_flag: limits.number(Limit::TierFlag),
                level_id: limits.number(Limit::LevelId),
                max_lsr: limits.number(Limit::MaxLsr),
                max_lps: limits.number(Limit::MaxLps),
                max_br: limits.number(Limit::MaxBr),
            },
        ),
        Err(ParametersError::OutOfMemory) => Err(CapabilityPointsError::OutOfMemory),
        Err(fault) => Err(CapabilityPointsError::Limits { place, fault }),
    }
}

/// The point at a place, of its text.
fn point_in(place: usize, text: &[u8]) -> Result<CapabilityPoint, CapabilityPointsError> {
    let (head, limits) = cut(text, b';');
    let (tool, segmentation) = cut(head, b':');
    let Some(tool) = ParallelTool::of_name(trimmed(tool)) else {
        return Err(CapabilityPointsError::NoTool { place });
    };
    match segmentation_in(trimmed(segmentation)) {
        Ok(segmentation) => with_limits(place, tool, segmentation, limits),
        Err(fault) => Err(CapabilityPointsError::Segmentation { place, fault }),
    }
}

/// The points of a text without its braces.
fn points_in(text: &[u8]) -> Result<Vec<CapabilityPoint>, CapabilityPointsError> {
    let mut points = Vec::new();
    let mut rest = Some(text);
    while let Some(text) = rest {
        let (piece, behind) = split_piece(text, b',');
        let point = point_in(points.len(), piece)?;
        points.try_push(point)?;
        rest = behind;
    }
    Ok(points)
}

/// Reads capability points: in braces, with `,` between them, each `w:` or `t:`, a number, and limits
/// that are read as format parameters are, `;` before each (RFC 7798, section 7.1).
///
/// What is refused first is told, with its place among the points: one of no tool, a number that is
/// none or out of its range, limits that are none, or no limit. A parameter that is none of the five
/// limits is left out (section 7.2).
pub fn read_capability_points(text: &[u8]) -> Result<Vec<CapabilityPoint>, CapabilityPointsError> {
    match in_braces(text) {
        Some(text) => points_in(text),
        None => Err(CapabilityPointsError::NoBraces),
    }
}

/// The text of a number, if it's given.
pub(crate) fn number_text(number: Option<u64>) -> Result<Option<Vec<u8>>, AllocError> {
    match number {
        Some(number) => Ok(Some(
            crate::support::try_format(format_args!("{number}"))?.into_bytes(),
        )),
        None => Ok(None),
    }
}

/// The text of a point's limits.
fn limits_text(point: &CapabilityPoint) -> Result<Vec<u8>, AllocError> {
    let mut values = Vec::try_with_room(5)?;
    values.try_push(number_text(point.tier_flag)?)?;
    values.try_push(number_text(point.level_id)?)?;
    values.try_push(number_text(point.max_lsr)?)?;
    values.try_push(number_text(point.max_lps)?)?;
    values.try_push(number_text(point.max_br)?)?;
    let others = Vec::new();
    parameters::write(&ROWS, &FormatParameters { values, others })
}

/// Writes a point at the end of a text.
fn push_point(text: &mut Vec<u8>, point: &CapabilityPoint) -> Result<(), AllocError> {
    let (tool, segmentation) = (point.tool.name(), point.spatial_segmentation);
    let head = crate::support::try_format(format_args!("{tool}:{segmentation};"))?.into_bytes();
    let limits = limits_text(point)?;
    text.try_extend_from_slice(head.as_slice())?;
    text.try_extend_from_slice(limits.as_slice())
}

/// The points of a text without its braces.
fn points_text(points: &[CapabilityPoint]) -> Result<Vec<u8>, AllocError> {
    let mut text = Vec::new();
    let Some((first, others)) = points.split_first() else {
        return Ok(text);
    };
    push_point(&mut text, first)?;
    for point in others {
        text.try_push(b',')?;
        push_point(&mut text, point)?;
    }
    Ok(text)
}

/// Writes capability points, the limits in the RFC's order. They are read as the same.
pub(crate) fn write_capability_points(points: &[CapabilityPoint]) -> Result<Vec<u8>, AllocError> {
    let points = points_text(points)?;
    let mut text = Vec::try_from_slice(b"{")?;
    text.try_extend_from_slice(points.as_slice())?;
    text.try_push(b'}')?;
    Ok(text)
}
