//! Values of lines, their parameters as they are written, and what is wrong with values.

use crate::proved::h26x_fmtp::{
    Encoding, Fault, Kind, ParametersError, RtpMap, RtpMapError, UnitsError, closes, pairs_of,
    push_pair, read_units, write_units,
};
use crate::proved::h26x_sdp::{
    CodecParameter, CodecParameters, H264Parameter, H264Parameters, H265Parameter, H265Parameters,
    H266Parameter, H266Parameters,
};

/// Values as ends write them, and the same without white space and blank parts. The comments say whose
/// form a value has; none was taken down from a run of theirs.
const LINES: [(&str, &str); 13] = [
    // as Chromium's, of H.264
    (
        "level-asymmetry-allowed=1;packetization-mode=1;profile-level-id=42e01f",
        "level-asymmetry-allowed=1;packetization-mode=1;profile-level-id=42e01f",
    ),
    (
        "level-asymmetry-allowed=1;packetization-mode=0;profile-level-id=f4001f",
        "level-asymmetry-allowed=1;packetization-mode=0;profile-level-id=f4001f",
    ),
    // as Chromium's, of H.265
    (
        "level-id=93;profile-id=1;tier-flag=0;tx-mode=SRST",
        "level-id=93;profile-id=1;tier-flag=0;tx-mode=SRST",
    ),
    // as Firefox's
    (
        "profile-level-id=42e01f;level-asymmetry-allowed=1",
        "profile-level-id=42e01f;level-asymmetry-allowed=1",
    ),
    // as Safari's
    (
        "level-asymmetry-allowed=1;packetization-mode=1;profile-level-id=640c1f",
        "level-asymmetry-allowed=1;packetization-mode=1;profile-level-id=640c1f",
    ),
    // as FFmpeg's, with its blanks; the values end in `=`
    (
        "packetization-mode=1; sprop-parameter-sets=Z0IACpZTBYmI,aMljiA==; profile-level-id=42000A",
        "packetization-mode=1;sprop-parameter-sets=Z0IACpZTBYmI,aMljiA==;profile-level-id=42000A",
    ),
    // a folded line, as RFC 6184 prints them
    (
        "profile-level-id=42A01E;\r\n          packetization-mode=1;\r\n",
        "profile-level-id=42A01E;packetization-mode=1",
    ),
    // RFC 7798, section 7.1: a `;` and a `=` in braces, also over folded lines
    (
        "level-id=93;dec-parallel-cap={t:8;level-id=120}",
        "level-id=93;dec-parallel-cap={t:8;level-id=120}",
    ),
    (
        "level-id=93;dec-parallel-cap={w:8;\r\n    max-lsr=62668800;max-lps=2088960}",
        "level-id=93;dec-parallel-cap={w:8;\r\n    max-lsr=62668800;max-lps=2088960}",
    ),
    // blank parts, white space round `=`, no value, no `=`
    (" ;; max-fs = 3600 ;x=; y ;", "max-fs=3600;x=;y="),
    // a name alone before its value, and nothing at all
    ("=1", "=1"),
    (" \t ;\r\n", ""),
    ("", ""),
];

/// What is wrong with values of each kind.
const VALUES: [(Kind, &str, Option<Fault>); 21] = [
    (MODE, "0", None),
    (MODE, "2", None),
    (MODE, "02", None),
    (MODE, "3", Some(Fault::OutOfRange)),
    (MODE, "18446744073709551616", Some(Fault::OutOfRange)),
    (MODE, "", Some(Fault::NotANumber)),
    (MODE, "+1", Some(Fault::NotANumber)),
    (MODE, "1 2", Some(Fault::NotANumber)),
    (ID, "42e01F", None),
    (ID, "42e01", Some(Fault::NotHexadecimal)),
    (ID, "42e01g", Some(Fault::NotHexadecimal)),
    (SEGMENTATION, "0fFF", None),
    (SEGMENTATION, "1000", Some(Fault::OutOfRange)),
    (SEGMENTATION, "10000000000000000", Some(Fault::OutOfRange)),
    (SEGMENTATION, "+f", Some(Fault::NotHexadecimal)),
    (Kind::TxMode, "SRST", None),
    (Kind::TxMode, "MRMT", None),
    (Kind::TxMode, "srst", None),
    (Kind::TxMode, "srmt", Some(Fault::NotTxMode)),
    (Kind::TxMode, "", Some(Fault::NotTxMode)),
    (Kind::Text, "", None),
];

/// Values of H.264, and the same in RFC 6184's order.
const IN_ORDER: [(&str, &str); 5] = [
    (
        "level-asymmetry-allowed=1;packetization-mode=1;profile-level-id=42e01f",
        "profile-level-id=42e01f;level-asymmetry-allowed=1;packetization-mode=1",
    ),
    (
        "packetization-mode=1; sprop-parameter-sets=Z0IACpZTBYmI,aMljiA==; profile-level-id=42000A",
        "profile-level-id=42000A;sprop-parameter-sets=Z0IACpZTBYmI,aMljiA==;packetization-mode=1",
    ),
    // what isn't known, in its order, and a name in another case
    (
        "x-google-start-bitrate=800; MAX-FS=3600;; B; x-google-max-bitrate=2000;",
        "max-fs=3600;x-google-start-bitrate=800;B=;x-google-max-bitrate=2000",
    ),
    (
        "cap={w:8;max-fs=1}; max-fs=2",
        "max-fs=2;cap={w:8;max-fs=1}",
    ),
    ("", ""),
];

/// Values of H.265, and the same in RFC 7798's order.
const H265_IN_ORDER: [(&str, &str); 5] = [
    // as Chromium's
    (
        "level-id=93;profile-id=1;tier-flag=0;tx-mode=SRST",
        "profile-id=1;tier-flag=0;level-id=93;tx-mode=SRST",
    ),
    // as FFmpeg's, without its sets
    (
        "sprop-sps=QgEBAWAAAAMAAAMAAAMAAAMAXaAB; sprop-vps=QAEMAf//; x=1",
        "sprop-vps=QAEMAf//;sprop-sps=QgEBAWAAAAMAAAMAAAMAAAMAXaAB;x=1",
    ),
    // RFC 7798, section 7.1: digits of base 16
    (
        "sprop-spatial-segmentation-idc=fFf; max-br=18446744073709551615; max-tr=352",
        "max-br=18446744073709551615;max-tr=352;sprop-spatial-segmentation-idc=fFf",
    ),
    // braces that hold a `level-id` of their own
    (
        "Level-ID=120; dec-parallel-cap={w:8;level-id=93,t:4;level-id=90}",
        "level-id=120;dec-parallel-cap={w:8;level-id=93,t:4;level-id=90}",
    ),
    (
        "profile-compatibility-indicator=60000000;interop-constraints=B00000000000;max-lsr=68451041280",
        "interop-constraints=B00000000000;profile-compatibility-indicator=60000000;max-lsr=68451041280",
    ),
];

/// Values of H.266, and the same in RFC 9328's order.
const H266_IN_ORDER: [(&str, &str); 3] = [
    (
        "sprop-dci=AGk=;level-id=83;tier-flag=1;profile-id=17",
        "profile-id=17;tier-flag=1;level-id=83;sprop-dci=AGk=",
    ),
    // H.265's name, which H.266 doesn't have
    (
        "sprop-sub-layer-id=7; sprop-sublayer-id=6; recv-ols-id=256",
        "sprop-sublayer-id=6;recv-ols-id=256;sprop-sub-layer-id=7",
    ),
    // RFC 9328, section 7.3.1: its example has `_` where the parameter has `-`
    ("level_id=83; profile-id=1;", "profile-id=1;level_id=83"),
];

/// What is refused for H.264, with its place and its fault.
const REFUSED: [(&str, usize, Fault); 9] = [
    ("packetization-mode=3", 0, Fault::OutOfRange),
    ("a=1;;packetization-mode=one", 1, Fault::NotANumber),
    ("max-fs=18446744073709551616", 0, Fault::OutOfRange),
    ("sprop-deint-buf-req=4294967296", 0, Fault::OutOfRange),
    ("redundant-pic-cap=2", 0, Fault::OutOfRange),
    ("sar-supported=255;sar-understood=255", 1, Fault::OutOfRange),
    ("sar-understood=0;sar-supported=0", 1, Fault::OutOfRange),
    ("x=1;profile-level-id=42e0", 1, Fault::NotHexadecimal),
    ("max-fs=1;a=2;Max-FS=1", 2, Fault::Twice),
];

/// What is refused for H.265.
const H265_REFUSED: [(&str, usize, Fault); 10] = [
    ("profile-space=4", 0, Fault::OutOfRange),
    ("level-id=93;profile-id=32", 1, Fault::OutOfRange),
    ("level-id=256", 0, Fault::OutOfRange),
    ("interop-constraints=B0000000000", 0, Fault::NotHexadecimal),
    ("x=1;;tx-mode=MRTM", 1, Fault::NotTxMode),
    ("max-dpb=0", 0, Fault::OutOfRange),
    ("max-dpb=16;max-dpb=17", 1, Fault::Twice),
    ("sprop-spatial-segmentation-idc=1000", 0, Fault::OutOfRange),
    ("sprop-spatial-segmentation-idc=", 0, Fault::NotHexadecimal),
    ("level-id=93;LEVEL-ID=93", 1, Fault::Twice),
];

/// What is refused for H.266.
const H266_REFUSED: [(&str, usize, Fault); 5] = [
    ("profile-id=128", 0, Fault::OutOfRange),
    ("tx-mode=x;sprop-sublayer-id=7", 1, Fault::OutOfRange),
    ("sprop-ols-id=257", 0, Fault::OutOfRange),
    ("depack-buf-cap=0", 0, Fault::OutOfRange),
    ("sprop-max-don-diff=32768", 0, Fault::OutOfRange),
];

/// Numbers of H.264's parameters where a line gives nothing (RFC 6184, section 8.1).
const H264_DEFAULTS: [(H264Parameter, Option<u64>); 6] = [
    (H264Parameter::PacketizationMode, Some(0)),
    (H264Parameter::SarUnderstood, Some(13)),
    (H264Parameter::DeintBufCap, Some(0)),
    (H264Parameter::SpropMaxDonDiff, None),
    (H264Parameter::MaxFs, None),
    (H264Parameter::ProfileLevelId, None),
];

/// The same of H.265 (RFC 7798, section 7.1).
const H265_DEFAULTS: [(H265Parameter, Option<u64>); 10] = [
    (H265Parameter::ProfileId, Some(1)),
    (H265Parameter::LevelId, Some(93)),
    (H265Parameter::SpropSubLayerId, Some(6)),
    (H265Parameter::RecvSubLayerId, None),
    (H265Parameter::SpropMaxDonDiff, Some(0)),
    (H265Parameter::DepackBufCap, Some(4294967295)),
    (H265Parameter::MaxDpb, Some(6)),
    (H265Parameter::SpropSpatialSegmentationIdc, None),
    (H265Parameter::TxMode, None),
    (H265Parameter::MaxLsr, None),
];

/// The same of H.266 (RFC 9328, section 7.2).
const H266_DEFAULTS: [(H266Parameter, Option<u64>); 5] = [
    (H266Parameter::ProfileId, Some(1)),
    (H266Parameter::TierFlag, Some(0)),
    (H266Parameter::LevelId, Some(51)),
    (H266Parameter::SpropSublayerId, Some(6)),
    (H266Parameter::SpropOlsId, None),
];

/// Texts of units, the first unit and how many there are.
const UNITS: [(&str, &[u8], usize); 3] = [
    (
        "Z0IACpZTBYmI,aMljiA==",
        b"\x67\x42\x00\x0a\x96\x53\x05\x89\x88",
        2,
    ),
    ("aMljiA==", b"\x68\xc9\x63\x88", 1),
    ("AA==,/+8=,AAAB", b"\x00", 3),
];

/// Texts that are no units.
const NO_UNITS: [(&str, UnitsError); 7] = [
    ("", UnitsError::Empty { place: 0 }),
    ("aMljiA==,", UnitsError::Empty { place: 1 }),
    ("AA==,,AA==", UnitsError::Empty { place: 1 }),
    ("Z0I", UnitsError::NotBase64 { place: 0 }),
    // padding left out, and bits behind the last byte
    ("aMljiA==,aMljiA", UnitsError::NotBase64 { place: 1 }),
    ("aMljiB==", UnitsError::NotBase64 { place: 0 }),
    ("AA==, AA==", UnitsError::NotBase64 { place: 1 }),
];

/// Payload types as lines give them, and as they are written.
const RTP_MAPS: [(&str, &str, u8, Encoding); 4] = [
    ("96 H264/90000", "96 H264/90000", 96, Encoding::H264),
    ("98 h265/90000", "98 H265/90000", 98, Encoding::H265),
    (" 0  H266/90000\r\n", "0 H266/90000", 0, Encoding::H266),
    ("127 H264/90000", "127 H264/90000", 127, Encoding::H264),
];

/// Texts that are no payload types.
const NO_RTP_MAPS: [(&str, RtpMapError); 8] = [
    ("", RtpMapError::PayloadType),
    ("128 H264/90000", RtpMapError::PayloadType),
    ("H264/90000", RtpMapError::PayloadType),
    ("96 VP8/90000", RtpMapError::Encoding),
    ("96 rtx/90000", RtpMapError::Encoding),
    ("96 H264", RtpMapError::ClockRate),
    ("96 H264/48000", RtpMapError::ClockRate),
    ("96 H264/90000/1", RtpMapError::ClockRate),
];

const MODE: Kind = Kind::Number { least: 0, most: 2 };

const ID: Kind = Kind::Hexadecimal { bytes: 3 };

const SEGMENTATION: Kind = Kind::HexadecimalNumber { most: 4095 };

/// The parameters of a text, written again.
fn written(text: &str) -> Vec<u8> {
    let mut out = Vec::new();
    for pair in pairs_of(text.as_bytes()) {
        push_pair(&mut out, pair).unwrap();
    }
    out
}

/// Each line is written as it should be, and that again as it is.
fn all_written(lines: &[(&str, &str)]) {
    for (line, want) in lines {
        let once = written(line);
        let twice = written(want);
        let wanted = want.as_bytes();
        assert!(once.as_slice() == wanted && twice.as_slice() == wanted && closes(wanted));
    }
}

/// Each value has its fault, or none.
fn all_told(values: &[(Kind, &str, Option<Fault>)]) {
    for (kind, value, want) in values {
        assert_eq!(kind.fault_in(value.as_bytes()), *want);
    }
}

#[test]
fn lines_of_ends() {
    all_written(&LINES);
    assert!(!closes(b"a={b"));
}

#[test]
fn values_of_each_kind() {
    all_told(&VALUES);
}

/// Each line of a codec is written in order.
fn all_in_order<P: CodecParameter>(lines: &[(&str, &str)]) {
    for (line, want) in lines {
        let text = CodecParameters::<P>::read(line.as_bytes())
            .unwrap()
            .write()
            .unwrap();
        assert_eq!(text.as_slice(), want.as_bytes());
    }
}

/// Each line of a codec is refused.
fn all_refused<P: CodecParameter>(lines: &[(&str, usize, Fault)]) {
    for (line, place, fault) in lines {
        let (place, fault) = (*place, *fault);
        let want = Some(ParametersError::Refused { place, fault });
        assert_eq!(CodecParameters::<P>::read(line.as_bytes()).err(), want);
    }
}

/// Each parameter has its number where the line gives none.
fn all_defaults<P: CodecParameter>(none: &CodecParameters<P>, numbers: &[(P, Option<u64>)]) {
    for (parameter, want) in numbers {
        assert_eq!(none.number_or_default(*parameter), *want);
    }
}

#[test]
fn lines_of_h264() {
    all_in_order::<H264Parameter>(&IN_ORDER);
    all_refused::<H264Parameter>(&REFUSED);
    let line = b"packetization-mode=1;x=2;profile-level-id=640032";
    let format = H264Parameters::read(line).unwrap();
    let mode = format.number(H264Parameter::PacketizationMode);
    let largest = format.number(H264Parameter::MaxFs);
    assert_eq!((mode, largest, format.others().len()), (Some(1), None, 1));
    let none = H264Parameters::read(b"").unwrap();
    all_defaults(&none, &H264_DEFAULTS);
    assert_eq!(
        none.value_or_default(H264Parameter::ProfileLevelId),
        Some(&b"42000a"[..])
    );
    assert_eq!(
        format.number_or_default(H264Parameter::PacketizationMode),
        Some(1)
    );
    // six digits, which are no number
    let id = H264Parameter::ProfileLevelId;
    assert!(format.value(id) == Some(b"640032") && format.number(id).is_none());
    assert_eq!(format.value(H264Parameter::MaxFs), None);
}

#[test]
fn lines_of_h265() {
    all_in_order::<H265Parameter>(&H265_IN_ORDER);
    all_refused::<H265Parameter>(&H265_REFUSED);
    let none = H265Parameters::read(b"").unwrap();
    all_defaults(&none, &H265_DEFAULTS);
    assert_eq!(
        none.value_or_default(H265Parameter::TxMode),
        Some(&b"SRST"[..])
    );
    let format = H265Parameters::read(b"include-dph=1,2;level-id=150").unwrap();
    let level = format.number(H265Parameter::LevelId);
    let tier = format.number(H265Parameter::TierFlag);
    let hashes = format.value(H265Parameter::IncludeDph);
    assert!((level, tier) == (Some(150), None) && hashes == Some(b"1,2"));
}

#[test]
fn lines_of_h266() {
    all_in_order::<H266Parameter>(&H266_IN_ORDER);
    all_refused::<H266Parameter>(&H266_REFUSED);
    let none = H266Parameters::read(b"").unwrap();
    all_defaults(&none, &H266_DEFAULTS);
    let constraints = none.value_or_default(H266Parameter::InteropConstraints);
    assert_eq!(constraints, Some(&b"gA=="[..]));
    let format = H266Parameters::read(b"depack-buf-cap=4294967295").unwrap();
    let room = format.number(H266Parameter::DepackBufCap);
    assert_eq!(
        (room, format.number(H266Parameter::MaxLsr)),
        (Some(4294967295), None)
    );
}

/// Each text is the units, and they the text.
fn all_units(texts: &[(&str, &[u8], usize)]) {
    for (text, first, many) in texts {
        let units = read_units(text.as_bytes()).unwrap();
        let again = write_units(units.as_slice()).unwrap();
        let begins = units.first().map(|unit| unit.as_slice()) == Some(*first);
        assert!(begins && units.len() == *many && again.as_slice() == text.as_bytes());
    }
}

/// Each text is refused.
fn no_units(texts: &[(&str, UnitsError)]) {
    for (text, want) in texts {
        assert_eq!(read_units(text.as_bytes()).err(), Some(*want));
    }
}

#[test]
fn texts_of_units() {
    all_units(&UNITS);
    no_units(&NO_UNITS);
    let line = b"sprop-parameter-sets=Z0IACpZTBYmI,aMljiA==;max-fs=1";
    let format = H264Parameters::read(line).unwrap();
    let sets = format.units(H264Parameter::SpropParameterSets).unwrap();
    let none = format.units(H264Parameter::MaxFs).unwrap();
    assert!(sets.map(|units| units.len()) == Some(2) && none.is_none());
}

/// Each line is its payload type, and is written as it should be.
fn all_rtp_maps(lines: &[(&str, &str, u8, Encoding)]) {
    for (line, want, payload_type, encoding) in lines {
        let (payload_type, encoding) = (*payload_type, *encoding);
        let map = RtpMap {
            payload_type,
            encoding,
        };
        let text = map.write().unwrap();
        let read = RtpMap::read(line.as_bytes());
        assert!(read == Ok(map) && text.as_slice() == want.as_bytes());
    }
}

/// Each line is refused.
fn no_rtp_maps(lines: &[(&str, RtpMapError)]) {
    for (line, want) in lines {
        assert_eq!(RtpMap::read(line.as_bytes()), Err(*want));
    }
}

#[test]
fn payload_types() {
    all_rtp_maps(&RTP_MAPS);
    no_rtp_maps(&NO_RTP_MAPS);
}
