//! The format parameters of a stream's codec, as a session description has them.

use emupedestal::Codec;
use emupedestal::sdp::{CodecParameters, H264Parameters, H265Parameters, H266Parameters};
use emupedestal::sdp::{H264Parameter, H265Parameter, H266Parameter, Parameter};
use emupedestal::sdp::{PacketizationMode, TxMode};

/// What a format says that matters to who receives.
pub struct Format {
    /// Whether packets bear decoding order numbers.
    pub has_donl: bool,
    /// Its parameter sets, in the order in which they are sent.
    pub sets: Vec<Vec<u8>>,
}

impl Format {
    /// Reads what stands behind the payload type; the error says what is wrong with it.
    pub fn read(codec: Codec, text: &str) -> Result<Self, String> {
        match codec {
            Codec::H264 => of_h264(&parsed(text)?),
            Codec::H265 => of_h265(&parsed(text)?),
            Codec::H266 => of_h266(&parsed(text)?),
        }
    }
}

fn parsed<P: Parameter>(text: &str) -> Result<CodecParameters<P>, String> {
    text.parse().map_err(|error| format!("{error}"))
}

fn of_h264(format: &H264Parameters) -> Result<Format, String> {
    if format.packetization_mode() == PacketizationMode::Interleaved {
        return Err("packetization-mode 2, interleaved units, is not read".into());
    }
    Ok(Format {
        has_donl: false,
        sets: sets_of(format, &[H264Parameter::SpropParameterSets])?,
    })
}

fn of_h265(format: &H265Parameters) -> Result<Format, String> {
    use H265Parameter::{SpropPps, SpropSps, SpropVps};

    if format.tx_mode() != TxMode::SingleStream {
        return Err("tx-mode: units in several streams are not read".into());
    }
    Ok(Format {
        has_donl: format.sprop_max_don_diff() > 0,
        sets: sets_of(format, &[SpropVps, SpropSps, SpropPps])?,
    })
}

fn of_h266(format: &H266Parameters) -> Result<Format, String> {
    use H266Parameter::{SpropDci, SpropPps, SpropSps, SpropVps};

    Ok(Format {
        has_donl: format.sprop_max_don_diff() > 0,
        sets: sets_of(format, &[SpropDci, SpropVps, SpropSps, SpropPps])?,
    })
}

/// The units of these parameters.
fn sets_of<P: Parameter>(
    format: &CodecParameters<P>,
    parameters: &[P],
) -> Result<Vec<Vec<u8>>, String> {
    let mut sets = Vec::new();
    for parameter in parameters {
        let units = format.units(*parameter);
        sets.extend(units.map_err(|error| format!("{}: {error}", parameter.name()))?);
    }
    Ok(sets)
}
