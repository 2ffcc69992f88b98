//! Capability points for parallel decoding (RFC 7798, section 7.1).

use crate::proved::h26x_fmtp::{Fault, ParametersError};
use crate::proved::h26x_sdp::{
    CapabilityPoint, CapabilityPointsError, CodecParameters, H265Parameter, ParallelTool,
    read_capability_points, write_capability_points,
};

/// A point of no limit.
const NO_LIMIT: CapabilityPoint = CapabilityPoint {
    tool: ParallelTool::NoWavefronts,
    spatial_segmentation: 8,
    tier_flag: None,
    level_id: None,
    max_lsr: None,
    max_lps: None,
    max_br: None,
};

/// The point of RFC 7798's first example.
const LEVEL_4: CapabilityPoint = CapabilityPoint {
    level_id: Some(120),
    ..NO_LIMIT
};

/// That of its second.
const WAVEFRONTS: CapabilityPoint = CapabilityPoint {
    tool: ParallelTool::Wavefronts,
    max_lsr: Some(62668800),
    max_lps: Some(2088960),
    ..NO_LIMIT
};

/// Texts of one point or two, and the same as they are written.
const POINTS: [(&[u8], &[CapabilityPoint], &[u8]); 6] = [
    (b"{t:8;level-id=120}", &[LEVEL_4], b"{t:8;level-id=120}"),
    (
        b"{w:8;\r\n    max-lsr=62668800;max-lps=2088960}",
        &[WAVEFRONTS],
        b"{w:8;max-lsr=62668800;max-lps=2088960}",
    ),
    // in any order, a name and a tool in upper case, white space, a blank part, zeros
    (
        b"{ W : 008 ; max-lps=2088960;; MAX-LSR = 062668800 ,t:8;level-id=120}",
        &[WAVEFRONTS, LEVEL_4],
        b"{w:8;max-lsr=62668800;max-lps=2088960,t:8;level-id=120}",
    ),
    // what is none of the limits is left out
    (
        b"{t:8;max-cpb=1;level-id=120;x}",
        &[LEVEL_4],
        b"{t:8;level-id=120}",
    ),
    (
        b"{t:4095;tier-flag=1;level-id=255;max-lps=4294967295}",
        &[CapabilityPoint {
            spatial_segmentation: 4095,
            tier_flag: Some(1),
            level_id: Some(255),
            max_lps: Some(4294967295),
            ..NO_LIMIT
        }],
        b"{t:4095;tier-flag=1;level-id=255;max-lps=4294967295}",
    ),
    (
        b"{t:1;max-br=18446744073709551615}",
        &[CapabilityPoint {
            spatial_segmentation: 1,
            max_br: Some(18446744073709551615),
            ..NO_LIMIT
        }],
        b"{t:1;max-br=18446744073709551615}",
    ),
];

/// Texts that are no points, and why.
const NO_POINTS: [(&[u8], CapabilityPointsError); 16] = [
    (b"", CapabilityPointsError::NoBraces),
    (b"{", CapabilityPointsError::NoBraces),
    (b"t:8;level-id=120", CapabilityPointsError::NoBraces),
    (b"{t:8;level-id=120", CapabilityPointsError::NoBraces),
    (b"{}", CapabilityPointsError::NoTool { place: 0 }),
    (
        b"{x:8;level-id=1}",
        CapabilityPointsError::NoTool { place: 0 },
    ),
    (
        b"{t:8;level-id=120,}",
        CapabilityPointsError::NoTool { place: 1 },
    ),
    (
        b"{t;level-id=120}",
        CapabilityPointsError::Segmentation {
            place: 0,
            fault: Fault::NotANumber,
        },
    ),
    (
        b"{t:0;level-id=120}",
        CapabilityPointsError::Segmentation {
            place: 0,
            fault: Fault::OutOfRange,
        },
    ),
    (
        b"{w:8;max-br=1,t:4096;level-id=120}",
        CapabilityPointsError::Segmentation {
            place: 1,
            fault: Fault::OutOfRange,
        },
    ),
    (
        b"{t:8;level-id=120;level-id=120}",
        CapabilityPointsError::Limits {
            place: 0,
            fault: ParametersError::Refused {
                place: 1,
                fault: Fault::Twice,
            },
        },
    ),
    (
        b"{t:8;tier-flag=2}",
        CapabilityPointsError::Limits {
            place: 0,
            fault: ParametersError::Refused {
                place: 0,
                fault: Fault::OutOfRange,
            },
        },
    ),
    (
        b"{t:8;level-id=120,t:9;max-lps=-1}",
        CapabilityPointsError::Limits {
            place: 1,
            fault: ParametersError::Refused {
                place: 0,
                fault: Fault::NotANumber,
            },
        },
    ),
    (
        b"{t:8;x={;level-id=120}",
        CapabilityPointsError::Limits {
            place: 0,
            fault: ParametersError::OpenBrace,
        },
    ),
    (b"{t:8}", CapabilityPointsError::NoLimit { place: 0 }),
    (
        b"{t:8;level-id=120,w:8;max-cpb=1}",
        CapabilityPointsError::NoLimit { place: 1 },
    ),
];

#[test]
fn points_of_texts() {
    for (text, want, again) in &POINTS {
        let points = read_capability_points(text).unwrap();
        assert_eq!(points.as_slice(), *want);
        let written = write_capability_points(points.as_slice()).unwrap();
        assert_eq!(written.as_slice(), *again);
    }
    for (text, want) in &NO_POINTS {
        assert_eq!(read_capability_points(text).err(), Some(*want));
    }
}

#[test]
fn points_with_what_is_said_outside() {
    let line = b"tier-flag=1;level-id=93;max-br=7;dec-parallel-cap={t:8;level-id=120,w:8;max-br=9}";
    let format = CodecParameters::<H265Parameter>::read(line).unwrap();
    let points = format.capability_points().unwrap();
    assert!(points.is_some());
    let level_4 = CapabilityPoint {
        tier_flag: Some(1),
        max_br: Some(7),
        ..LEVEL_4
    };
    assert_eq!(format.inferred(LEVEL_4), level_4);
    // the level of `max-recv-level-id`, or where that is absent of `level-id`
    assert_eq!(format.inferred(WAVEFRONTS).level_id, Some(93));
    let line = b"level-id=93;max-recv-level-id=123;max-lsr=5;dec-parallel-cap={t:8}";
    let format = CodecParameters::<H265Parameter>::read(line).unwrap();
    assert_eq!(format.inferred(WAVEFRONTS).level_id, Some(123));
    assert_eq!(format.inferred(LEVEL_4).max_lsr, Some(5));
    let none = CapabilityPointsError::NoLimit { place: 0 };
    assert_eq!(format.capability_points().err(), Some(none));
    let absent = CodecParameters::<H265Parameter>::read(b"").unwrap();
    assert!(absent.capability_points().unwrap().is_none());
    assert_eq!(absent.interop_constraints(), Some([0xb0, 0, 0, 0, 0, 0]));
    let line = b"interop-constraints=9000000000aB";
    let format = CodecParameters::<H265Parameter>::read(line).unwrap();
    assert_eq!(format.interop_constraints(), Some([0x90, 0, 0, 0, 0, 0xab]));
}
