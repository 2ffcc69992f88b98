// Made from crates/h26x_sdp_handles/src/sdp_values.rt by tools/to-rust.

//! What format parameters say in a grammar of their own, as numbers: constraints, and capability
//! points of H.265.

use crate::proved::h26x_codes::code::{NOT_OF_THIS_CODEC, OUT_OF_MEMORY};
use crate::proved::h26x_sdp::{
    CapabilityPoint, CodecParameters, H265Parameter, InteropConstraints, ParallelTool,
};
use crate::proved::h26x_sdp_handles::sdp::SdpEndpoint;
use crate::proved::h26x_sdp_handles::sdp_code::{
    ABSENT, PointRefused, of_constraints, of_points, point_refused_with,
};
use alloc::vec::Vec;

/// The constraints of H.265, which are six bytes, or those of H.266.
pub enum SdpConstraints {
    H265([u8; 6]),
    H266(InteropConstraints),
}

/// What constraints say, as C is told it.
#[repr(C)]
#[derive(Debug, Clone, Copy, PartialEq, Eq)]
pub struct ConstraintNumbers {
    /// The 48 flags of H.265, the first the highest bit; of H.266 0.
    pub flags: u64,
    /// How many bytes they are.
    pub len: usize,
    /// Whether each picture is a frame.
    pub frame_only: bool,
    /// H.266: whether a stream may have several layers.
    pub multilayer: bool,
    /// H.266: whether general constraints are among them.
    pub general: bool,
}

/// A capability point, as C is told it; a limit that isn't there is 0.
#[repr(C)]
#[derive(Debug, Clone, Copy, PartialEq, Eq)]
pub struct PointNumbers {
    pub spatial_segmentation: u64,
    pub tier_flag: u64,
    pub level_id: u64,
    pub max_lsr: u64,
    pub max_lps: u64,
    pub max_br: u64,
    /// 1 for wavefronts.
    pub tool: u8,
    pub has_tier_flag: u8,
    pub has_level_id: u8,
    pub has_max_lsr: u8,
    pub has_max_lps: u8,
    pub has_max_br: u8,
}

/// The number of a tool.
fn number_of_tool(tool: ParallelTool) -> u8 {
    match tool {
        ParallelTool::NoWavefronts => 0,
        ParallelTool::Wavefronts => 1,
    }
}

/// A limit, and 1 where it's there, or 0.
fn numbers_of_limit(limit: Option<u64>) -> (u64, u8) {
    match limit {
        Some(number) => (number, 1),
        None => (0, 0),
    }
}

/// A capability point in numbers.
fn numbers_of_point(point: CapabilityPoint) -> PointNumbers {
    let (tier_flag, has_tier_flag) = numbers_of_limit(point.tier_flag);
    let (level_id, has_level_id) = numbers_of_limit(point.level_id);
    let (max_lsr, has_max_lsr) = numbers_of_limit(point.max_lsr);
    let (max_lps, has_max_lps) = numbers_of_limit(point.max_lps);
    let (max_br, has_max_br) = numbers_of_limit(point.max_br);
    PointNumbers {
        spatial_segmentation: point.spatial_segmentation,
        tier_flag,
        level_id,
        max_lsr,
        max_lps,
        max_br,
        tool: number_of_tool(point.tool),
        has_tier_flag,
        has_level_id,
        has_max_lsr,
        has_max_lps,
        has_max_br,
    }
}

/// A capability point in numbers, as it stands, or with the limits that it leaves out.
fn numbers_told(
    it: &CodecParameters<H265Parameter>,
    or_default: bool,
    point: CapabilityPoint,
) -> PointNumbers {
    numbers_of_point(if or_default {
        it.inferred(point)
    } else {
        point
    })
}

/// Writes the first points to the front of a buffer, as many as there is room for.
fn put_points(
    it: &CodecParameters<H265Parameter>,
    or_default: bool,
    points: &[CapabilityPoint],
    to: &mut [PointNumbers],
) {
    let mut place = 0;
    while place < points.len() && place < to.len() {
        to[place] = numbers_told(it, or_default, points[place]);
        place += 1;
    }
}

/// The points of parameters of H.265.
fn points_of(it: &CodecParameters<H265Parameter>) -> Result<Vec<CapabilityPoint>, PointRefused> {
    match it.capability_points() {
        Ok(Some(points)) => Ok(points),
        Ok(None) => Err(point_refused_with(ABSENT)),
        Err(error) => Err(of_points(error)),
    }
}

impl SdpConstraints {
    /// Their bytes.
    pub fn as_bytes(&self) -> &[u8] {
        match self {
            SdpConstraints::H265(flags) => flags,
            SdpConstraints::H266(it) => it.as_bytes(),
        }
    }

    /// What they say.
    pub fn numbers(&self) -> ConstraintNumbers {
        match self {
            SdpConstraints::H265([a, b, c, d, e, f]) => ConstraintNumbers {
                flags: u64::from_be_bytes([0, 0, *a, *b, *c, *d, *e, *f]),
                len: 6,
                frame_only: *a >> 4 & 0x01 == 1,
                multilayer: false,
                general: false,
            },
            SdpConstraints::H266(it) => ConstraintNumbers {
                flags: 0,
                len: it.as_bytes().len(),
                frame_only: it.is_frame_only(),
                multilayer: it.is_multilayer(),
                general: it.has_general(),
            },
        }
    }
}

impl SdpEndpoint {
    /// What `interop-constraints` says, or where it's absent what the RFC takes for it.
    pub fn constraints(&self) -> Result<SdpConstraints, u32> {
        match self {
            SdpEndpoint::H264(_) => Err(NOT_OF_THIS_CODEC),
            SdpEndpoint::H265(it) => match it.parameters().interop_constraints() {
                Some(flags) => Ok(SdpConstraints::H265(flags)),
                None => Err(ABSENT),
            },
            SdpEndpoint::H266(it) => match it.parameters().interop_constraints() {
                Ok(constraints) => Ok(SdpConstraints::H266(constraints)),
                Err(error) => Err(of_constraints(error)),
            },
        }
    }

    /// Writes the first capability points of `dec-parallel-cap` to the front of a buffer, as many
    /// as there is room for, each as it stands, or with the limits that it leaves out; how many
    /// they all are.
    pub fn capability_points(
        &self,
        or_default: bool,
        to: &mut [PointNumbers],
    ) -> Result<usize, PointRefused> {
        match self {
            SdpEndpoint::H265(it) => {
                let points = points_of(it.parameters())?;
                put_points(it.parameters(), or_default, points.as_slice(), to);
                Ok(points.len())
            }
            _ => Err(point_refused_with(NOT_OF_THIS_CODEC)),
        }
    }
}
