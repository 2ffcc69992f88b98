// Made from crates/h26x_sdp/src/rtx.rt by tools/to-rust.

//! The format parameters of retransmission (RTX).

use crate::proved::h26x_fmtp::kind::BITS_64;
use crate::proved::h26x_fmtp::{
    FormatParameters, Kind, ParameterRow, ParametersError, parameters, payload_type_in,
};
use crate::proved::h26x_sdp::capability_points::number_text;
use crate::proved::h26x_sdp::codec::{CodecParameter, CodecParameters};
use crate::proved::h26x_sdp::error::RtxError;
use crate::support::AllocError;
use crate::support::TryVec;
use alloc::vec::Vec;

/// What stands behind the payload type in an `a=fmtp` line of `rtx` (RFC 4588, sections 8.3 and 8.6).
#[derive(Debug, Clone, Copy, PartialEq, Eq, Hash)]
pub struct RtxFormat {
    /// `apt`: the payload type that the packets were first sent with, below 128.
    pub payload_type: u8,
    /// `rtx-time`: for how many milliseconds a packet can be sent again; not said where it's absent.
    pub rtx_time: Option<u64>,
}

/// A parameter of the table.
#[derive(Debug, Clone, Copy, PartialEq, Eq)]
pub(crate) enum RtxParameter {
    Apt,
    RtxTime,
}

/// The parameters of the table.
static ROWS: [ParameterRow; 2] = [
    ParameterRow {
        name: b"apt",
        kind: Kind::Number {
            least: 0,
            most: 127,
        },
        default: None,
    },
    ParameterRow {
        name: b"rtx-time",
        kind: BITS_64,
        default: None,
    },
];

impl CodecParameter for RtxParameter {
    fn rows() -> &'static [ParameterRow] {
        &ROWS
    }

    fn place(self) -> usize {
        self as usize
    }
}

/// The payload type that parameters say.
fn associated(it: &CodecParameters<RtxParameter>) -> Option<u8> {
    payload_type_in(it.value(RtxParameter::Apt)?)
}

impl RtxFormat {
    /// Reads what stands behind the payload type. What is refused first is told: an `apt` above 127, a
    /// parameter that is no number, or one that is given twice; and where nothing is, that there is no
    /// `apt`. Parameters that RFC 4588 doesn't have are left out.
    pub fn read(text: &[u8]) -> Result<RtxFormat, RtxError> {
        let it = match CodecParameters::<RtxParameter>::read(text) {
            Ok(it) => it,
            Err(ParametersError::OutOfMemory) => return Err(RtxError::OutOfMemory),
            Err(fault) => return Err(RtxError::Parameters(fault)),
        };
        match associated(&it) {
            Some(payload_type) => Ok(RtxFormat {
                payload_type,
                rtx_time: it.number(RtxParameter::RtxTime),
            }),
            None => Err(RtxError::NoPayloadType),
        }
    }

    /// Writes what stands behind the payload type. It is read as the same.
    pub(crate) fn write(self) -> Result<Vec<u8>, AllocError> {
        let payload_type = self.payload_type;
        let mut values = Vec::try_with_room(2)?;
        values.try_push(Some(
            crate::support::try_format(format_args!("{payload_type}"))?.into_bytes(),
        ))?;
        values.try_push(number_text(self.rtx_time)?)?;
        let others = Vec::new();
        parameters::write(&ROWS, &FormatParameters { values, others })
    }
}
