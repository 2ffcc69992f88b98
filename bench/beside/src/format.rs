//! The payload formats, and how their NAL units begin.

use emupedestal::Codec;

/// A codec, and whether its packets bear decoding order numbers (DONL).
#[derive(Clone, Copy)]
pub struct Format {
    pub name: &'static str,
    pub codec: Codec,
    pub has_donl: bool,
}

impl Format {
    pub const ALL: [Format; 5] = [
        Format::new("H.264", Codec::H264, false),
        Format::new("H.265", Codec::H265, false),
        Format::new("H.265 with DONL", Codec::H265, true),
        Format::new("H.266", Codec::H266, false),
        Format::new("H.266 with DONL", Codec::H266, true),
    ];

    const fn new(name: &'static str, codec: Codec, has_donl: bool) -> Self {
        Format {
            name,
            codec,
            has_donl,
        }
    }

    pub fn headers(&self) -> &'static Headers {
        match self.codec {
            Codec::H264 => &H264,
            Codec::H265 => &H265,
            Codec::H266 => &H266,
        }
    }
}

/// The headers of a codec's NAL units and of its aggregation packets.
pub struct Headers {
    /// Of the parameter sets: a VPS where the codec has one, an SPS, a PPS.
    pub sets: &'static [&'static [u8]],
    /// Of a slice of an IDR picture.
    pub idr: &'static [u8],
    /// Of another slice.
    pub slice: &'static [u8],
    /// Of a STAP-A, or of an AP.
    pub aggregate: &'static [u8],
    /// The bytes of DOND, which stand before each unit of an AP but the first where it has DONL.
    pub dond: &'static [u8],
}

const H264: Headers = Headers {
    sets: &[&[0x67], &[0x68]],
    idr: &[0x65],
    slice: &[0x61],
    aggregate: &[0x78],
    dond: &[],
};

const H265: Headers = Headers {
    sets: &[&[0x40, 0x01], &[0x42, 0x01], &[0x44, 0x01]],
    idr: &[0x26, 0x01],
    slice: &[0x02, 0x01],
    aggregate: &[0x60, 0x01],
    dond: &[0],
};

const H266: Headers = Headers {
    sets: &[&[0x00, 0x71], &[0x00, 0x79], &[0x00, 0x81]],
    idr: &[0x00, 0x39],
    slice: &[0x00, 0x09],
    aggregate: &[0x00, 0xe1],
    dond: &[],
};
