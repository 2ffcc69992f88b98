// Made from crates/h26x_stream_parameters/src/from_stream.rt by tools/to-rust.

//! What a stream says of itself: the parameters of a sender's offer, out of the sets before the first
//! slice.

use crate::proved::h26x_cut::{ZeroRule, units};
use crate::proved::h26x_fmtp::unit_types::{
    H264_SETS, H264_SPS, H265_PPS, H265_SPS, H265_VPS, H266_PPS, H266_SPS, H266_VPS,
};
use crate::proved::h26x_fmtp::{Encoding, UnitTypes, write_units};
use crate::proved::h26x_sdp::{
    CodecParameter, CodecParameters, H264Parameter, H264Parameters, H265Parameter, H265Parameters,
    H266Parameter, H266Parameters, constraints_len, has_general,
};
use crate::proved::h26x_stream_parameters::error::StreamError;
use crate::proved::h26x_stream_parameters::unescaped::first_unescaped;
use crate::support::AllocError;
use crate::support::TryVec;
use crate::support::base64::engine::general_purpose::STANDARD;
use alloc::vec::Vec;

/// The slices of an encoding, by which the first picture begins.
fn slices(encoding: Encoding) -> UnitTypes {
    let (first, last) = match encoding {
        Encoding::H264 => (1, 5),
        Encoding::H265 => (0, 31),
        Encoding::H266 => (0, 11),
    };
    UnitTypes {
        encoding,
        first,
        last,
    }
}

/// A unit's layer, which H.264 doesn't have.
fn unit_layer(encoding: Encoding, unit: &[u8]) -> u8 {
    match (encoding, unit) {
        (Encoding::H265, [high, low, ..]) => (high & 0x01) * 32 + (low >> 3 & 0x1f),
        (Encoding::H266, [high, ..]) => high & 0x3f,
        _ => 0,
    }
}

/// Whether a unit is of one of these types, and of the lowest layer.
fn is_base(types: UnitTypes, unit: &[u8]) -> bool {
    types.has(unit) && unit_layer(types.encoding, unit) == 0
}

/// The first set of a type and of the lowest layer, before the first slice.
fn first_set<'a>(types: UnitTypes, units: &[&'a [u8]]) -> Option<&'a [u8]> {
    let slices = slices(types.encoding);
    for unit in units {
        if slices.has(unit) {
            return None;
        }
        if is_base(types, unit) {
            return Some(unit);
        }
    }
    None
}

/// The sets of a type before the first slice.
fn first_sets(types: UnitTypes, units: &[&[u8]]) -> Result<Vec<Vec<u8>>, AllocError> {
    let slices = slices(types.encoding);
    let mut sets = Vec::new();
    for unit in units {
        if slices.has(unit) {
            return Ok(sets);
        }
        if types.has(unit) {
            sets.try_push(Vec::try_from_slice(unit)?)?;
        }
    }
    Ok(sets)
}

/// What stands behind a unit's header.
fn behind_header(unit: &[u8], header: usize) -> &[u8] {
    if header < unit.len() {
        &unit[header..]
    } else {
        &[]
    }
}

/// The first bytes of a set behind its header, without those that keep start codes out.
fn set_bytes(header: usize, many: usize, set: Option<&[u8]>) -> Result<Vec<u8>, StreamError> {
    let Some(unit) = set else {
        return Err(StreamError::NoParameterSet);
    };
    let bytes = first_unescaped(behind_header(unit, header), many)?;
    if bytes.len() < many {
        return Err(StreamError::ShortParameterSet);
    }
    Ok(bytes)
}

/// Bytes by two hexadecimal digits each, in lower case, as peers write them.
fn base16(bytes: &[u8]) -> Result<Vec<u8>, AllocError> {
    Ok(crate::support::hex::encode(bytes)?.into_bytes())
}

/// A number by its decimal digits.
fn number_text(number: u8) -> Result<Vec<u8>, AllocError> {
    Ok(crate::support::try_format(format_args!("{number}"))?.into_bytes())
}

/// Gives a parameter the sets of a type before the first slice, if there are some.
fn put_sets<P: CodecParameter>(
    it: &mut CodecParameters<P>,
    parameter: P,
    types: UnitTypes,
    units: &[&[u8]],
) -> Result<(), AllocError> {
    let sets = first_sets(types, units)?;
    if !sets.is_empty() {
        it.put(parameter, write_units(sets.as_slice())?);
    }
    Ok(())
}

/// The three bytes of profile and level of the first SPS of H.264 (Rec. ITU-T H.264, section
/// 7.3.2.1.1).
fn h264_profile(units: &[&[u8]]) -> Result<Vec<u8>, StreamError> {
    set_bytes(1, 3, first_set(H264_SPS, units))
}

/// Gives parameters what those three bytes say, and the mode of packets as packetizers send them: they
/// have fragments and aggregates.
fn h264_put_profile(it: &mut H264Parameters, profile: &[u8]) -> Result<(), AllocError> {
    it.put(H264Parameter::ProfileLevelId, base16(profile)?);
    it.put(H264Parameter::PacketizationMode, Vec::try_from_slice(b"1")?);
    Ok(())
}

/// The parameters of H.264 that a sender says of its stream, out of the units that it begins with:
/// `profile-level-id`, `sprop-parameter-sets` and `packetization-mode=1`, which packetizers need (RFC
/// 6184, sections 6.3 and 8.1).
///
/// The sets are those before the first slice, and the first SPS says profile and level: that the
/// others say the same is for the caller to see. Where no SPS is there or it's too short for its
/// profile and level, that is told.
pub fn h264_of_units(units: &[&[u8]]) -> Result<H264Parameters, StreamError> {
    let profile = h264_profile(units)?;
    let mut it = H264Parameters::none()?;
    h264_put_profile(&mut it, profile.as_slice())?;
    put_sets(&mut it, H264Parameter::SpropParameterSets, H264_SETS, units)?;
    Ok(it)
}

/// The twelve bytes of profile, tier and level of H.265: of the first SPS, or where none is there of
/// the first VPS (Rec. ITU-T H.265, section 7.3.3).
fn h265_profile(units: &[&[u8]]) -> Result<Vec<u8>, StreamError> {
    let sps = first_set(H265_SPS, units);
    let (front, set) = match sps {
        Some(_) => (1, sps),
        None => (4, first_set(H265_VPS, units)),
    };
    let bytes = set_bytes(2, front + 12, set)?;
    Ok(Vec::try_from_slice(&bytes[front..])?)
}

/// Gives parameters what those twelve bytes say.
fn h265_put_profile(it: &mut H265Parameters, profile: &[u8]) -> Result<(), AllocError> {
    let first = profile[0];
    it.put(H265Parameter::ProfileSpace, number_text(first >> 6 & 0x03)?);
    it.put(H265Parameter::ProfileId, number_text(first & 0x1f)?);
    it.put(H265Parameter::TierFlag, number_text(first >> 5 & 0x01)?);
    it.put(H265Parameter::LevelId, number_text(profile[11])?);
    it.put(H265Parameter::InteropConstraints, base16(&profile[5..11])?);
    it.put(
        H265Parameter::ProfileCompatibilityIndicator,
        base16(&profile[1..5])?,
    );
    Ok(())
}

/// The parameters of H.265 that a sender says of its stream, out of the units that it begins with: its
/// profile, tier and level, with their constraints, and `sprop-vps`, `sprop-sps` and `sprop-pps` (RFC
/// 7798, section 7.1).
///
/// The sets are those before the first slice. The first SPS of the lowest layer says profile, tier
/// and level, or where none is there the first VPS. Where neither is there or it's too short, that is
/// told.
pub fn h265_of_units(units: &[&[u8]]) -> Result<H265Parameters, StreamError> {
    let profile = h265_profile(units)?;
    let mut it = H265Parameters::none()?;
    h265_put_profile(&mut it, profile.as_slice())?;
    put_sets(&mut it, H265Parameter::SpropVps, H265_VPS, units)?;
    put_sets(&mut it, H265Parameter::SpropSps, H265_SPS, units)?;
    put_sets(&mut it, H265Parameter::SpropPps, H265_PPS, units)?;
    Ok(it)
}

/// The bytes of the first SPS of H.266 as far as its constraints: behind two of them profile, tier and
/// level stand, and behind four the constraints (Rec. ITU-T H.266, sections 7.3.2.4 and 7.3.3.1).
fn h266_profile(units: &[&[u8]]) -> Result<Vec<u8>, StreamError> {
    h266_profile_in(first_set(H266_SPS, units))
}

/// The same of an SPS with general constraints, which say how long they are.
fn with_general(sps: Option<&[u8]>) -> Result<Vec<u8>, StreamError> {
    let bytes = set_bytes(2, 15, sps)?;
    let len = constraints_len(&bytes[4..]);
    set_bytes(2, 4 + len, sps)
}

/// Those bytes of an SPS.
fn h266_profile_in(sps: Option<&[u8]>) -> Result<Vec<u8>, StreamError> {
    let bytes = set_bytes(2, 5, sps)?;
    if bytes[1] & 0x01 == 0 {
        return Err(StreamError::NoProfile);
    }
    if has_general(&bytes[4..]) {
        with_general(sps)
    } else {
        Ok(bytes)
    }
}

/// Gives parameters what those bytes say.
fn h266_put_profile(it: &mut H266Parameters, profile: &[u8]) -> Result<(), AllocError> {
    let first = profile[2];
    it.put(H266Parameter::ProfileId, number_text(first >> 1 & 0x7f)?);
    it.put(H266Parameter::TierFlag, number_text(first & 0x01)?);
    it.put(H266Parameter::LevelId, number_text(profile[3])?);
    let constraints = STANDARD.encode(&profile[4..])?.into_bytes();
    it.put(H266Parameter::InteropConstraints, constraints);
    Ok(())
}

/// The parameters of H.266 that a sender says of its stream, out of the units that it begins with: its
/// profile, tier and level, with their constraints, and `sprop-vps`, `sprop-sps` and `sprop-pps` (RFC
/// 9328, section 7.2).
///
/// The sets are those before the first slice. The first SPS of the lowest layer says profile, tier
/// and level. Where none is there, it's too short or it doesn't say them, that is told.
pub fn h266_of_units(units: &[&[u8]]) -> Result<H266Parameters, StreamError> {
    let profile = h266_profile(units)?;
    let mut it = H266Parameters::none()?;
    h266_put_profile(&mut it, profile.as_slice())?;
    put_sets(&mut it, H266Parameter::SpropVps, H266_VPS, units)?;
    put_sets(&mut it, H266Parameter::SpropSps, H266_SPS, units)?;
    put_sets(&mut it, H266Parameter::SpropPps, H266_PPS, units)?;
    Ok(it)
}

/// The units of a payload.
fn units_of<'a>(payload: &'a [u8], rule: ZeroRule) -> Result<Vec<&'a [u8]>, AllocError> {
    let mut list = Vec::new();
    for unit in units(payload, rule) {
        list.try_push(unit)?;
    }
    Ok(list)
}

/// The parameters of H.264 that a sender says of its stream, out of the bytes that it begins with
/// (Annex B), as [`h264_of_units`] gives them.
pub fn h264_of_payload(payload: &[u8]) -> Result<H264Parameters, StreamError> {
    let list = units_of(payload, ZeroRule::All)?;
    h264_of_units(list.as_slice())
}

/// The parameters of H.265 that a sender says of its stream, out of the bytes that it begins with
/// (Annex B), as [`h265_of_units`] gives them.
pub fn h265_of_payload(payload: &[u8]) -> Result<H265Parameters, StreamError> {
    let list = units_of(payload, ZeroRule::All)?;
    h265_of_units(list.as_slice())
}

/// The parameters of H.266 that a sender says of its stream, out of the bytes that it begins with
/// (Annex B), as [`h266_of_units`] gives them.
pub fn h266_of_payload(payload: &[u8]) -> Result<H266Parameters, StreamError> {
    let list = units_of(payload, ZeroRule::AtMostThree)?;
    h266_of_units(list.as_slice())
}
