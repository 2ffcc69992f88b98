// Made from crates/h26x_depacketizer/src/reassembly.rt by tools/to-rust.

//! Fragments as a depacketizer takes them (RFC 6184, 5.8; RFC 7798, 4.4.3; RFC 9328, 4.3.3).

use crate::proved::h26x_core::{CodecExtra, PacketError};
use crate::proved::h26x_depacketizer::byte_stream::write_parts;
use crate::proved::h26x_depacketizer::extra::told;
use crate::proved::h26x_depacketizer::run::OpenRun;
use crate::proved::h26x_depacketizer::sink::UnitSink;
use crate::proved::h26x_payload::PayloadFormat;

/// A fragment of a unit (RFC 6184, 5.8; RFC 7798, 4.4.3; RFC 9328, 4.3.3).
#[derive(Clone, Copy)]
pub struct Fragment<'a> {
    /// Whether it is the first of its unit.
    pub start: bool,
    /// Whether it is the last.
    pub end: bool,
    /// The header that its unit has: as many of these bytes as the codec's headers have.
    pub head: [u8; 2],
    /// Its data.
    pub body: &'a [u8],
}

/// Takes a fragment: a start begins a run anew, another is added to the open run, an end closes it
/// and writes its unit (RFC 6184, 5.8; RFC 7798, 4.4.3; RFC 9328, 4.3.3). One that doesn't start
/// while no run is open does nothing, and takes no memory.
#[inline(always)]
pub(crate) fn take_fragment<C: PayloadFormat, W: UnitSink>(
    codec: C,
    is_avc: bool,
    fragment: Fragment<'_>,
    run: &mut OpenRun,
    out: &mut W,
    codec_extra: &mut CodecExtra,
) -> Result<(), PacketError> {
    if !fragment.start && !run.is_open() {
        return Ok(());
    }
    if fragment.end {
        let head_len = codec.header_len();
        let data = if fragment.start { &[] } else { run.bytes() };
        write_parts(is_avc, fragment.head, head_len, data, fragment.body, out)?;
        *codec_extra = told(
            codec,
            *codec_extra,
            codec.is_key(&fragment.head[..head_len]),
        );
        run.close();
    } else if fragment.start {
        run.begin(fragment.body)?;
    } else {
        run.extend(fragment.body)?;
    }
    Ok(())
}
