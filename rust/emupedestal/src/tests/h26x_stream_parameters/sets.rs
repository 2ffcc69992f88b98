//! What streams say of themselves: the sets of two real ones, and of one by hand.

use crate::proved::h26x_fmtp::UnitsError;
use crate::proved::h26x_sdp::{
    CodecParameter, CodecParameters, ConstraintsError, H264Parameter, H265Parameter, H266Parameter,
    InteropConstraints, LevelSetsError, read_level_sets, write_level_sets,
};
use crate::proved::h26x_stream_parameters::{
    StreamError, fits_single_units, h264_of_payload, h264_of_units, h265_of_payload, h265_of_units,
    h266_of_payload, h266_of_units,
};

/// The sets of an H.264 stream of x264: Constrained Baseline, level 1, as ffprobe tells.
const H264_SPS: &[u8] =
    b"\x67\x42\xc0\x0a\xd9\x09\x6c\x04\x40\x00\x00\x03\x00\x40\x00\x00\x0c\x83\xc4\x89\x92";

const H264_PPS: &[u8] = b"\x68\xcb\x81\x12\xc8";

/// The sets of an H.265 stream of x265: Main 10, level 2, as ffprobe tells.
const H265_VPS: &[u8] =
    b"\x40\x01\x0c\x01\xff\xff\x02\x20\x00\x00\x03\x00\x90\x00\x00\x03\x00\x00\x03\x00\x3c\x95\x94\x09";

const H265_SPS: &[u8] =
    b"\x42\x01\x01\x02\x20\x00\x00\x03\x00\x90\x00\x00\x03\x00\x00\x03\x00\x3c\xa0\x16\x20\x24\
      \x4d\x96\x56\x59\x24\xca\xf0\x16\x80\x80\x00\x00\x03\x00\x80\x00\x00\x0c\x84";

const H265_PPS: &[u8] = b"\x44\x01\xc1\x72\xb4\x62\x40";

/// An SPS of H.266 by hand: Main 10, Main tier, level 3.1, frames alone, without general constraints.
const H266_SPS: &[u8] = b"\x00\x79\x00\x0d\x02\x33\x80";

/// What FFmpeg 5.1 wrote of these streams (`-sdp_file`), and the same in the RFCs' order, with what it
/// left out in the second.
const H264_LINE: &str = "packetization-mode=1; sprop-parameter-sets=Z0LACtkJbARAAAADAEAAAAyDxImS,aMuBEsg=; \
      profile-level-id=42C00A";

const H264_WRITTEN: &str = "profile-level-id=42c00a;sprop-parameter-sets=Z0LACtkJbARAAAADAEAAAAyDxImS,aMuBEsg=;packetization-mode=1";

const H265_LINE: &str = "sprop-vps=QAEMAf//AiAAAAMAkAAAAwAAAwA8lZQJ; \
      sprop-sps=QgEBAiAAAAMAkAAAAwAAAwA8oBYgJE2WVlkkyvAWgIAAAAMAgAAADIQ=; \
      sprop-pps=RAHBcrRiQA==";

const H265_WRITTEN: &str = "profile-space=0;profile-id=2;tier-flag=0;level-id=60;interop-constraints=900000000000;\
      profile-compatibility-indicator=20000000;sprop-vps=QAEMAf//AiAAAAMAkAAAAwAAAwA8lZQJ;\
      sprop-sps=QgEBAiAAAAMAkAAAAwAAAwA8oBYgJE2WVlkkyvAWgIAAAAMAgAAADIQ=;sprop-pps=RAHBcrRiQA==";

/// Lines, parameters whose units are refused, and why.
const H264_NO_UNITS: [(&str, H264Parameter, UnitsError); 3] = [
    (
        "sprop-parameter-sets=Z0LACg==,ZQ==",
        H264Parameter::SpropParameterSets,
        UnitsError::OtherType { place: 1 },
    ),
    (
        "sprop-parameter-sets=aMs=,ZwAAAQ==",
        H264Parameter::SpropParameterSets,
        UnitsError::StartCode { place: 1 },
    ),
    // what is no unit comes before what is another's
    (
        "sprop-parameter-sets=ZQ==,x",
        H264Parameter::SpropParameterSets,
        UnitsError::NotBase64 { place: 1 },
    ),
];

const H265_NO_UNITS: [(&str, H265Parameter, UnitsError); 3] = [
    (
        "sprop-vps=QgE=",
        H265Parameter::SpropVps,
        UnitsError::OtherType { place: 0 },
    ),
    // a header that isn't whole
    (
        "sprop-vps=QAE=,QA==",
        H265Parameter::SpropVps,
        UnitsError::OtherType { place: 1 },
    ),
    // type 41
    (
        "sprop-sei=TgE=,UAE=,UgE=",
        H265Parameter::SpropSei,
        UnitsError::OtherType { place: 2 },
    ),
];

const H266_NO_UNITS: [(&str, H266Parameter, UnitsError); 3] = [
    (
        "sprop-dci=AHE=",
        H266Parameter::SpropDci,
        UnitsError::OtherType { place: 0 },
    ),
    (
        "sprop-vps=AHE=,AHk=",
        H266Parameter::SpropVps,
        UnitsError::OtherType { place: 1 },
    ),
    // types 23, 24 and 25
    (
        "sprop-sei=ALk=,AME=,AMk=",
        H266Parameter::SpropSei,
        UnitsError::OtherType { place: 2 },
    ),
];

/// The units of each line's parameter are refused.
fn no_units<P: CodecParameter>(lines: &[(&str, P, UnitsError)]) {
    for (line, parameter, want) in lines {
        let format = CodecParameters::<P>::read(line.as_bytes()).unwrap();
        assert_eq!(format.units(*parameter).err(), Some(*want));
    }
}

#[test]
fn units_of_another_type() {
    no_units(&H264_NO_UNITS);
    no_units(&H265_NO_UNITS);
    no_units(&H266_NO_UNITS);
    let format = CodecParameters::<H264Parameter>::read(H264_LINE.as_bytes()).unwrap();
    let sets = format.units(H264Parameter::SpropParameterSets).unwrap();
    assert_eq!(sets.map(|units| units.len()), Some(2));
}

#[test]
fn stream_of_h264() {
    let slice: &[u8] = b"\x65\x88";
    let text = h264_of_units(&[H264_SPS, H264_PPS, slice, H264_PPS])
        .unwrap()
        .write()
        .unwrap();
    assert_eq!(text.as_slice(), H264_WRITTEN.as_bytes());
    let bytes = b"\x00\x00\x00\x01\x67\x00\x00\x03\x01\x00\x00\x01\x65";
    let text = h264_of_payload(bytes).unwrap().write().unwrap();
    assert_eq!(
        text.as_slice(),
        "profile-level-id=000001;sprop-parameter-sets=ZwAAAwE=;packetization-mode=1".as_bytes()
    );
    let none = Some(StreamError::NoParameterSet);
    assert_eq!(h264_of_units(&[H264_PPS, slice, H264_SPS]).err(), none);
    let short = Some(StreamError::ShortParameterSet);
    assert_eq!(h264_of_units(&[&H264_SPS[..3], H264_SPS]).err(), short);
}

#[test]
fn stream_of_h265() {
    let units = [H265_VPS, H265_SPS, H265_PPS, b"\x26\x01\xaf", H265_PPS];
    let format = h265_of_units(&units).unwrap();
    let text = format.write().unwrap();
    assert_eq!(text.as_slice(), H265_WRITTEN.as_bytes());
    let read = CodecParameters::<H265Parameter>::read(H265_LINE.as_bytes()).unwrap();
    let sps = H265Parameter::SpropSps;
    assert_eq!(read.value(sps), format.value(sps));
    // a VPS alone says the same profile, and a set of a higher layer none
    let format = h265_of_payload(H265_VPS).unwrap();
    let id = H265Parameter::InteropConstraints;
    assert!(format.value(id) == Some(b"900000000000") && format.value(sps).is_none());
    let none = Some(StreamError::NoParameterSet);
    assert_eq!(h265_of_units(&[b"\x42\x09\x01\x02"]).err(), none);
    let short = Some(StreamError::ShortParameterSet);
    assert_eq!(h265_of_units(&[&H265_SPS[..17], H265_VPS]).err(), short);
}

#[test]
fn stream_of_h266() {
    let text = h266_of_units(&[H266_SPS, b"\x00\x39", H266_SPS])
        .unwrap()
        .write()
        .unwrap();
    let want =
        b"profile-id=1;tier-flag=0;interop-constraints=gA==;level-id=51;sprop-sps=AHkADQIzgA==";
    assert_eq!(text.as_slice(), want.as_slice());
    let format = h266_of_payload(H266_SPS).unwrap();
    assert_eq!(format.number(H266Parameter::LevelId), Some(51));
    let no_profile = Some(StreamError::NoProfile);
    assert_eq!(
        h266_of_units(&[b"\x00\x79\x00\x0c\x02\x33\x80"]).err(),
        no_profile
    );
}

/// An SPS whose general constraints are 82 bits and five additional ones, with a byte behind them, and
/// one that has none of these five.
const GENERAL_SPS: &[u8] =
    b"\x00\x79\x00\x0d\x02\x33\xa0\x80\x00\x00\x03\x00\x00\x03\x00\x00\x03\x00\x01\x7e\xff";

const SHORT_GENERAL_SPS: &[u8] =
    b"\x00\x79\x00\x0d\x02\x33\xe0\x80\x01\x01\x01\x01\x01\x01\x01\x00\x00\xff";

#[test]
fn general_constraints_of_h266() {
    let format = h266_of_units(&[GENERAL_SPS]).unwrap();
    let constraints = format.interop_constraints().unwrap();
    let want = b"\xa0\x80\x00\x00\x00\x00\x00\x00\x00\x01\x7e";
    assert_eq!(constraints.as_bytes(), want.as_slice());
    assert!(constraints.is_frame_only() && !constraints.is_multilayer());
    assert!(constraints.has_general());
    let text = format.value(H266Parameter::InteropConstraints);
    assert_eq!(text, Some(&b"oIAAAAAAAAAAAX4="[..]));
    let short = Some(StreamError::ShortParameterSet);
    assert_eq!(h266_of_units(&[&GENERAL_SPS[..19]]).err(), short);
    let format = h266_of_units(&[SHORT_GENERAL_SPS]).unwrap();
    let constraints = format.interop_constraints().unwrap();
    let want = b"\xe0\x80\x01\x01\x01\x01\x01\x01\x01\x00\x00";
    assert_eq!(constraints.as_bytes(), want.as_slice());
    assert!(constraints.is_frame_only() && constraints.is_multilayer());
}

/// Texts that are no constraints, and why.
const NO_CONSTRAINTS: [(&[u8], ConstraintsError); 6] = [
    (b"gA=", ConstraintsError::NotBase64),
    (b"gB==", ConstraintsError::NotBase64),
    (b"", ConstraintsError::Short),
    (b"oA==", ConstraintsError::Short),
    (b"gAA=", ConstraintsError::Long),
    // a byte behind five additional bits
    (b"oIAAAAAAAAAAAX7/", ConstraintsError::Long),
];

#[test]
fn constraints_of_texts() {
    for (text, want) in &NO_CONSTRAINTS {
        assert_eq!(InteropConstraints::read(text).err(), Some(*want));
    }
    for text in [b"AA==".as_slice(), b"wA==", b"oIAAAAAAAAAAAX4="] {
        let it = InteropConstraints::read(text).unwrap();
        assert_eq!(it.write().unwrap().as_slice(), text);
    }
    let absent = CodecParameters::<H266Parameter>::read(b"level-id=51").unwrap();
    let it = absent.interop_constraints().unwrap();
    assert!(it.is_frame_only() && !it.is_multilayer() && !it.has_general());
    let bytes = vec![0x40, 0x00];
    assert_eq!(
        InteropConstraints::from_bytes(bytes).err(),
        Some(ConstraintsError::Long)
    );
}

/// Texts that are no parameter sets of levels, and why.
const NO_LEVELS: [(&[u8], LevelSetsError); 9] = [
    (b"", LevelSetsError::NoSets { place: 0 }),
    (b"42e00b", LevelSetsError::NoSets { place: 0 }),
    (b"42e00b:Zw==:", LevelSetsError::NoSets { place: 1 }),
    (b"42e0:Zw==", LevelSetsError::NotHexadecimal { place: 0 }),
    (
        b"42e00b:Zw==:42e00g:Zw==",
        LevelSetsError::NotHexadecimal { place: 1 },
    ),
    (
        b"42e00b:Zw==,Zw",
        LevelSetsError::Sets {
            place: 0,
            fault: UnitsError::NotBase64 { place: 1 },
        },
    ),
    (
        b"42e00b:Zw==:42e00c:",
        LevelSetsError::Sets {
            place: 1,
            fault: UnitsError::Empty { place: 0 },
        },
    ),
    (
        b"42e00b:aMs=,ZQ==",
        LevelSetsError::Sets {
            place: 0,
            fault: UnitsError::OtherType { place: 1 },
        },
    ),
    (
        b"42e00b:ZwAAAQ==",
        LevelSetsError::Sets {
            place: 0,
            fault: UnitsError::StartCode { place: 0 },
        },
    ),
];

#[test]
fn sets_of_levels() {
    for (text, want) in &NO_LEVELS {
        assert_eq!(read_level_sets(text).err(), Some(*want));
    }
    let line = b"sprop-level-parameter-sets=42E00B:Z0LgCw==,aMs=:4de00b:aMs=";
    let format = CodecParameters::<H264Parameter>::read(line).unwrap();
    assert!(format.level_sets().unwrap().is_some());
    let value = format
        .value(H264Parameter::SpropLevelParameterSets)
        .unwrap_or(b"");
    let levels = read_level_sets(value).unwrap();
    let text = write_level_sets(levels.as_slice()).unwrap();
    assert_eq!(
        text.as_slice(),
        b"42e00b:Z0LgCw==,aMs=:4de00b:aMs=".as_slice()
    );
    assert_eq!(levels.len(), 2);
    let (first, second) = (&levels[0], &levels[1]);
    assert!(first.profile_level_id == [0x42, 0xe0, 0x0b] && first.sets.len() == 2);
    assert!(second.profile_level_id == [0x4d, 0xe0, 0x0b] && second.sets.len() == 1);
    assert_eq!(second.sets[0].as_slice(), b"\x68\xcb".as_slice());
    let none = CodecParameters::<H264Parameter>::read(b"packetization-mode=1").unwrap();
    assert!(none.level_sets().unwrap().is_none());
}

#[test]
fn single_units_alone() {
    let payload = b"\x00\x00\x01\x67\x42\xc0\x00\x00\x01\x68\xcb";
    assert!(fits_single_units(payload, 3) && !fits_single_units(payload, 2));
}
