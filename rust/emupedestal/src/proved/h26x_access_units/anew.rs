// Made from crates/h26x_access_units/src/anew.rt by tools/to-rust.

//! What waits where a stream begins anew.

use crate::proved::h26x_access_units::config::AccessUnitConfig;
use crate::proved::h26x_access_units::jitter::JitterBuffer;
use crate::proved::h26x_reorder::RtpPacket;
use crate::support::AllocError;

/// What waits of a stream that begins anew with these two packets: both, whatever the limit.
pub(crate) fn anew_with(
    now: u32,
    config: AccessUnitConfig,
    stray: &RtpPacket<'_>,
    packet: &RtpPacket<'_>,
) -> Result<JitterBuffer, AllocError> {
    let unlimited = AccessUnitConfig {
        held_limit: usize::MAX,
        ..config
    };
    let mut waiting = JitterBuffer::new(unlimited);
    let _ = waiting.try_push(now, stray)?;
    let _ = waiting.try_push(now, packet)?;
    waiting.set_held_limit(config.held_limit);
    Ok(waiting)
}
