// Made from crates/h26x_depacketizer/src/byte_stream.rt by tools/to-rust.

//! Units as they are written: behind start codes (Annex B of H.264, H.265 and H.266), or behind their
//! lengths (ISO/IEC 14496-15).

use crate::proved::h26x_core::{ANNEXB_NALUSTART_CODE, PacketError};
use crate::proved::h26x_depacketizer::sink::UnitSink;

/// The bytes before a unit that is written: a start code (Annex B of H.264, H.265 and H.266), or its
/// length (ISO/IEC 14496-15).
pub const PREFIX_SIZE: usize = 4;

/// What stands before a unit of this length.
#[inline(always)]
pub(crate) fn prefix_of(is_avc: bool, len: usize) -> [u8; 4] {
    if is_avc {
        (len as u32).to_be_bytes()
    } else {
        ANNEXB_NALUSTART_CODE
    }
}

/// Whether four bytes don't hold a unit's length.
#[inline]
pub(crate) fn is_too_long(len: usize) -> bool {
    len > u32::MAX as usize
}

/// Writes a whole unit, where there is room for it. Each form is a call of its own, so that the loop
/// over an aggregate's units is compiled once for each.
#[inline(always)]
pub(crate) fn put_unit<W: UnitSink>(is_avc: bool, unit: &[u8], out: &mut W) {
    if is_avc {
        out.put_behind(prefix_of(true, unit.len()), unit);
    } else {
        out.put_behind(prefix_of(false, unit.len()), unit);
    }
}

/// Writes a whole unit behind its length (ISO/IEC 14496-15).
#[inline(always)]
fn write_behind_length<W: UnitSink>(unit: &[u8], out: &mut W) -> Result<(), PacketError> {
    if is_too_long(unit.len()) {
        return Err(PacketError::AvcUnitTooLong);
    }
    out.try_reserve(unit.len().saturating_add(PREFIX_SIZE))?;
    put_unit(true, unit, out);
    Ok(())
}

/// Writes a whole unit behind a start code (Annex B of H.264, H.265 and H.266).
#[inline(always)]
fn write_behind_start_code<W: UnitSink>(unit: &[u8], out: &mut W) -> Result<(), PacketError> {
    out.try_reserve(unit.len().saturating_add(PREFIX_SIZE))?;
    put_unit(false, unit, out);
    Ok(())
}

/// Writes a whole unit, behind a start code or behind its length. A unit over `u32::MAX` bytes has no
/// length of four bytes; else memory may lack.
///
/// Each form is a copy of its own, so that small units are written without a branch in between.
#[inline(always)]
pub fn write_unit<W: UnitSink>(is_avc: bool, unit: &[u8], out: &mut W) -> Result<(), PacketError> {
    if is_avc {
        write_behind_length(unit, out)
    } else {
        write_behind_start_code(unit, out)
    }
}

/// What stands before a unit's data: the start code or the length, and its header behind that.
#[inline(always)]
fn lead_of(prefix: [u8; 4], head: [u8; 2]) -> [u8; 6] {
    [prefix[0], prefix[1], prefix[2], prefix[3], head[0], head[1]]
}

/// Writes what stands before the data of a unit of this length, with a header of so many of these
/// bytes, where there is room for it. It is one copy of few bytes, whose number the compiler knows,
/// which takes no call.
#[inline(always)]
fn put_lead<W: UnitSink>(is_avc: bool, len: usize, head: [u8; 2], head_len: usize, out: &mut W) {
    let lead = lead_of(prefix_of(is_avc, len), head);
    out.put(&lead[..PREFIX_SIZE + head_len]);
}

/// Writes a unit of these parts, where there is room for it.
#[inline(always)]
fn put_parts<W: UnitSink>(
    is_avc: bool,
    head: [u8; 2],
    head_len: usize,
    run: &[u8],
    body: &[u8],
    out: &mut W,
) {
    put_lead(
        is_avc,
        head_len + run.len() + body.len(),
        head,
        head_len,
        out,
    );
    if !run.is_empty() {
        out.put(run);
    }
    out.put(body);
}

/// Writes a unit of these parts, as `write_unit` does: its header, which has so many of these bytes,
/// the data of its run, and the last of its data (RFC 6184, 5.8; RFC 7798, 4.4.3; RFC 9328, 4.3.3).
///
/// # Panics
///
/// Unless `head_len <= 2`.
#[inline(always)]
pub fn write_parts<W: UnitSink>(
    is_avc: bool,
    head: [u8; 2],
    head_len: usize,
    run: &[u8],
    body: &[u8],
    out: &mut W,
) -> Result<(), PacketError> {
    assert!(head_len <= 2);
    let len = head_len
        .saturating_add(run.len())
        .saturating_add(body.len());
    if is_avc && is_too_long(len) {
        return Err(PacketError::AvcUnitTooLong);
    }
    out.try_reserve(len.saturating_add(PREFIX_SIZE))?;
    put_parts(is_avc, head, head_len, run, body, out);
    Ok(())
}

/// Writes a unit of a header, which has so many of these bytes, and of what stands behind it, as
/// `write_unit` does. Each form is a copy of its own here too.
///
/// # Panics
///
/// Unless `head_len <= 2`.
#[inline(always)]
pub fn write_headed<W: UnitSink>(
    is_avc: bool,
    head: [u8; 2],
    head_len: usize,
    body: &[u8],
    out: &mut W,
) -> Result<(), PacketError> {
    assert!(head_len <= 2);
    if is_avc {
        write_parts(true, head, head_len, &[], body, out)
    } else {
        write_parts(false, head, head_len, &[], body, out)
    }
}
