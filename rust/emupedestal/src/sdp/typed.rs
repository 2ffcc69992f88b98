//! Values with a grammar of their own.

use super::{CapabilityPoint, CapabilityPointsError, ConstraintsError, LevelSets, LevelSetsError};
use crate::proved::h26x_sdp as proved;
use alloc::string::String;
use alloc::vec::Vec;
use core::fmt;
use core::str::FromStr;

/// What `interop-constraints` of H.266 says: ptl_frame_only_constraint_flag, ptl_multilayer_enabled_flag and
/// general_constraints_info( ) (RFC 9328, section 7.2).
///
/// ```
/// use emupedestal::sdp::InteropConstraints;
///
/// let constraints: InteropConstraints = "gA==".parse()?;
/// assert!(constraints.is_frame_only() && !constraints.is_multilayer() && !constraints.has_general());
/// assert_eq!((constraints.as_bytes(), constraints.to_string().as_str()), (&[0x80][..], "gA=="));
/// # Ok::<(), emupedestal::sdp::ConstraintsError>(())
/// ```
#[derive(Clone, PartialEq, Eq, Hash)]
pub struct InteropConstraints {
    pub(super) of: proved::InteropConstraints,
}

impl InteropConstraints {
    /// The constraints of bytes, as they stand in profile_tier_level( ).
    ///
    /// # Errors
    ///
    /// Where they aren't as many as they say.
    pub fn from_bytes(bytes: Vec<u8>) -> Result<Self, ConstraintsError> {
        let of = proved::InteropConstraints::from_bytes(bytes)?;
        Ok(InteropConstraints { of })
    }

    /// Their bytes.
    pub fn as_bytes(&self) -> &[u8] {
        self.of.as_bytes()
    }

    /// ptl_frame_only_constraint_flag: whether each picture is a frame.
    pub fn is_frame_only(&self) -> bool {
        self.of.is_frame_only()
    }

    /// ptl_multilayer_enabled_flag: whether a stream may have several layers.
    pub fn is_multilayer(&self) -> bool {
        self.of.is_multilayer()
    }

    /// gci_present_flag: whether general constraints are among them.
    pub fn has_general(&self) -> bool {
        self.of.has_general()
    }
}

/// Reads them: base64 with its padding (RFC 4648, section 4).
impl FromStr for InteropConstraints {
    type Err = ConstraintsError;

    fn from_str(text: &str) -> Result<Self, ConstraintsError> {
        let of = proved::InteropConstraints::read(text.as_bytes())?;
        Ok(InteropConstraints { of })
    }
}

/// Writes them. Where memory lacks that is a [`fmt::Error`].
impl fmt::Display for InteropConstraints {
    fn fmt(&self, f: &mut fmt::Formatter<'_>) -> fmt::Result {
        let text = self.of.write().map_err(|_| fmt::Error)?;
        f.write_str(core::str::from_utf8(&text).unwrap_or_default())
    }
}

impl fmt::Debug for InteropConstraints {
    fn fmt(&self, f: &mut fmt::Formatter<'_>) -> fmt::Result {
        write!(f, "InteropConstraints({self})")
    }
}

/// Reads parameter sets of levels: of each six digits as in `profile-level-id`, `:`, its sets as in
/// `sprop-parameter-sets`, and `:` between levels.
///
/// # Errors
///
/// The first that is none is told by its place.
pub fn read_level_sets(text: &str) -> Result<Vec<LevelSets>, LevelSetsError> {
    proved::read_level_sets(text.as_bytes())
}

/// Writes parameter sets of levels, the digits in lower case. They are read as the same where there is one, each has
/// some, and each of these is an SPS or a PPS without a start code inside.
///
/// # Errors
///
/// Where memory lacks.
pub fn write_level_sets(levels: &[LevelSets]) -> Result<String, LevelSetsError> {
    let text = proved::write_level_sets(levels)?;
    Ok(String::from_utf8(text).unwrap_or_default())
}

/// Reads capability points: in braces, with `,` between them, each `w:` or `t:`, a number from 1 to 4095, and limits,
/// `;` before each. A parameter that is none of the five limits is left out (RFC 7798, sections 7.1 and 7.2).
///
/// ```
/// use emupedestal::sdp::{ParallelTool, read_capability_points};
///
/// let points = read_capability_points("{w:8;max-lsr=62668800;max-lps=2088960}")?;
/// assert_eq!((points[0].tool, points[0].max_lps), (ParallelTool::Wavefronts, Some(2088960)));
/// # Ok::<(), emupedestal::sdp::CapabilityPointsError>(())
/// ```
///
/// # Errors
///
/// The first that is none is told by its place.
pub fn read_capability_points(text: &str) -> Result<Vec<CapabilityPoint>, CapabilityPointsError> {
    proved::read_capability_points(text.as_bytes())
}

/// Writes capability points, the limits in the RFC's order. They are read as the same where there is one, each has a
/// limit, and its numbers are in their ranges.
///
/// # Errors
///
/// Where memory lacks.
pub fn write_capability_points(
    points: &[CapabilityPoint],
) -> Result<String, CapabilityPointsError> {
    let text = proved::write_capability_points(points)?;
    Ok(String::from_utf8(text).unwrap_or_default())
}
