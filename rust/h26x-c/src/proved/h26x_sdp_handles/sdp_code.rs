// Made from crates/h26x_sdp_handles/src/sdp_code.rt by tools/to-rust.

//! What the calls on SDP answer, as numbers.

use crate::proved::h26x_answers::FormatFault;
use crate::proved::h26x_codec::Codec;
use crate::proved::h26x_codes::code::OUT_OF_MEMORY;
use crate::proved::h26x_fmtp::{Encoding, Fault, ParametersError, RtpMapError, UnitsError};
use crate::proved::h26x_sdp::{CapabilityPointsError, ConstraintsError, LevelSetsError, RtxError};
use crate::proved::h26x_stream_parameters::StreamError;

/// A brace of the text isn't closed.
pub const OPEN_BRACE: u32 = 20;

/// The RFC has no parameter of this name.
pub const UNKNOWN_NAME: u32 = 26;

/// It isn't given; or there is none behind the last.
pub const ABSENT: u32 = 27;

/// The parameter is no number, or no units.
pub const OTHER_KIND: u32 = 28;

/// Two formats have no configuration in common.
pub const NO_ANSWER: u32 = 37;

/// What should be a payload type is no number of 7 bits.
pub const PAYLOAD_TYPE: u32 = 38;

/// The text would be read as more than a value.
pub const NOT_A_VALUE: u32 = 49;

/// A code, and the place that it is of; 0 where it is of none.
#[derive(Debug, Clone, Copy, PartialEq, Eq)]
pub struct Refused {
    pub code: u32,
    pub place: usize,
}

/// A code that is of no place.
pub fn refused_with(code: u32) -> Refused {
    Refused { code, place: 0 }
}

/// A code, the place of the capability point that it is of, and the code of what is wrong there; 0
/// where there is none.
#[derive(Debug, Clone, Copy, PartialEq, Eq)]
pub struct PointRefused {
    pub code: u32,
    pub place: usize,
    pub fault: u32,
}

/// A code that is of no point.
pub fn point_refused_with(code: u32) -> PointRefused {
    PointRefused {
        code,
        place: 0,
        fault: 0,
    }
}

/// The code of a parameter's fault.
pub fn code_of_fault(fault: Fault) -> u32 {
    match fault {
        Fault::NotANumber => 21,
        Fault::OutOfRange => 22,
        Fault::NotHexadecimal => 23,
        Fault::NotTxMode => 24,
        Fault::Twice => 25,
    }
}

/// Why a text is no parameters.
pub fn of_parameters(error: ParametersError) -> Refused {
    match error {
        ParametersError::OpenBrace => refused_with(OPEN_BRACE),
        ParametersError::Refused { place, fault } => Refused {
            code: code_of_fault(fault),
            place,
        },
        ParametersError::OutOfMemory => refused_with(OUT_OF_MEMORY),
    }
}

/// Why a parameter is no units.
pub fn of_units(error: UnitsError) -> Refused {
    match error {
        UnitsError::NotBase64 { place } => Refused { code: 29, place },
        UnitsError::Empty { place } => Refused { code: 30, place },
        UnitsError::OtherType { place } => Refused { code: 31, place },
        UnitsError::StartCode { place } => Refused { code: 32, place },
        UnitsError::OutOfMemory => refused_with(OUT_OF_MEMORY),
    }
}

/// Why a text is no parameter sets of levels, and the place of the level that it is of.
pub fn of_level_sets(error: LevelSetsError) -> Refused {
    match error {
        LevelSetsError::NotHexadecimal { place } => Refused { code: 23, place },
        LevelSetsError::NoSets { place } => Refused { code: 74, place },
        LevelSetsError::Sets { place, fault } => Refused {
            code: of_units(fault).code,
            place,
        },
        LevelSetsError::OutOfMemory => refused_with(OUT_OF_MEMORY),
    }
}

/// Why a text is no capability points.
pub fn of_points(error: CapabilityPointsError) -> PointRefused {
    let (code, place, fault) = match error {
        CapabilityPointsError::NoBraces => (41, 0, 0),
        CapabilityPointsError::NoTool { place } => (42, place, 0),
        CapabilityPointsError::Segmentation { place, fault } => (43, place, code_of_fault(fault)),
        CapabilityPointsError::Limits { place, fault } => (44, place, of_parameters(fault).code),
        CapabilityPointsError::NoLimit { place } => (45, place, 0),
        CapabilityPointsError::OutOfMemory => (OUT_OF_MEMORY, 0, 0),
    };
    PointRefused { code, place, fault }
}

/// Why a text is no constraints of H.266.
pub fn of_constraints(error: ConstraintsError) -> u32 {
    match error {
        ConstraintsError::NotBase64 => 46,
        ConstraintsError::Short => 47,
        ConstraintsError::Long => 48,
        ConstraintsError::OutOfMemory => OUT_OF_MEMORY,
    }
}

/// Why a stream says no parameters.
pub fn of_stream(error: StreamError) -> u32 {
    match error {
        StreamError::NoParameterSet => 33,
        StreamError::ShortParameterSet => 34,
        StreamError::NoProfile => 35,
        StreamError::OutOfMemory => OUT_OF_MEMORY,
    }
}

/// Why a text is no format of retransmission.
pub fn of_rtx(error: RtxError) -> Refused {
    match error {
        RtxError::Parameters(error) => of_parameters(error),
        RtxError::NoPayloadType => refused_with(63),
        RtxError::OutOfMemory => refused_with(OUT_OF_MEMORY),
    }
}

/// The rule that a format breaks, and the place in the table of the parameter that it is of.
pub fn of_format_fault(fault: FormatFault) -> Refused {
    match fault {
        FormatFault::Profile => refused_with(64),
        FormatFault::Level => refused_with(65),
        FormatFault::HighestLevel => refused_with(66),
        FormatFault::BelowLevel { place } => Refused { code: 67, place },
        FormatFault::Reordering => refused_with(68),
        FormatFault::OutOfOrder => refused_with(69),
        FormatFault::AboveLevel { place } => Refused { code: 70, place },
        FormatFault::AspectRatios => refused_with(71),
        FormatFault::InBandSets => refused_with(72),
        FormatFault::HashTypes => refused_with(73),
    }
}

/// Why a text is no payload type of one of the codecs.
pub fn of_rtp_map(error: RtpMapError) -> u32 {
    match error {
        RtpMapError::PayloadType => PAYLOAD_TYPE,
        RtpMapError::Encoding => 39,
        RtpMapError::ClockRate => 40,
    }
}

/// The number of a codec, which is that of its standard.
pub fn number_of_codec(codec: Codec) -> u32 {
    match codec {
        Codec::H264 => 264,
        Codec::H265 => 265,
        Codec::H266 => 266,
    }
}

/// The codec of an encoding.
pub fn codec_of_encoding(encoding: Encoding) -> Codec {
    match encoding {
        Encoding::H264 => Codec::H264,
        Encoding::H265 => Codec::H265,
        Encoding::H266 => Codec::H266,
    }
}

/// The encoding of a codec.
pub fn encoding_of_codec(codec: Codec) -> Encoding {
    match codec {
        Codec::H264 => Encoding::H264,
        Codec::H265 => Encoding::H265,
        Codec::H266 => Encoding::H266,
    }
}
