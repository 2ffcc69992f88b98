//! What types of units and packets are called (H.264, table 7-1; H.265, table 7-1; H.266, table 5; RFC
//! 6184, 5.2; RFC 7798, 4.4; RFC 9328, 4.3).

use emupedestal::Codec;

/// A unit's type by its name.
pub fn unit_name(codec: Codec, unit_type: u8) -> &'static str {
    match codec {
        Codec::H264 => h264(unit_type),
        Codec::H265 => h265(unit_type),
        Codec::H266 => h266(unit_type),
    }
}

/// Whether a unit of this type is a slice of a picture where decoding can begin at once.
pub fn is_keyframe_type(codec: Codec, unit_type: u8) -> bool {
    match codec {
        Codec::H264 => unit_type == 5,
        Codec::H265 => matches!(unit_type, 16..=21),
        Codec::H266 => matches!(unit_type, 7..=9),
    }
}

fn h264(unit_type: u8) -> &'static str {
    match unit_type {
        1 => "slice",
        2 => "data partition A",
        3 => "data partition B",
        4 => "data partition C",
        5 => "IDR slice",
        6 => "SEI",
        7 => "SPS",
        8 => "PPS",
        9 => "AUD",
        10 => "end of sequence",
        11 => "end of stream",
        12 => "filler",
        13 => "SPS extension",
        14 => "prefix",
        15 => "subset SPS",
        16 => "DPS",
        19 => "auxiliary slice",
        20 => "slice extension",
        21 => "depth slice extension",
        _ => "reserved",
    }
}

fn h265(unit_type: u8) -> &'static str {
    const SLICES: [&str; 10] = [
        "TRAIL_N", "TRAIL_R", "TSA_N", "TSA_R", "STSA_N", "STSA_R", "RADL_N", "RADL_R", "RASL_N",
        "RASL_R",
    ];
    const KEY_SLICES: [&str; 6] = [
        "BLA_W_LP",
        "BLA_W_RADL",
        "BLA_N_LP",
        "IDR_W_RADL",
        "IDR_N_LP",
        "CRA",
    ];
    const OTHERS: [&str; 9] = [
        "VPS",
        "SPS",
        "PPS",
        "AUD",
        "EOS",
        "EOB",
        "filler",
        "prefix SEI",
        "suffix SEI",
    ];
    match unit_type {
        0..=9 => SLICES[usize::from(unit_type)],
        16..=21 => KEY_SLICES[usize::from(unit_type - 16)],
        32..=40 => OTHERS[usize::from(unit_type - 32)],
        _ => "reserved",
    }
}

fn h266(unit_type: u8) -> &'static str {
    const SLICES: [&str; 4] = ["TRAIL", "STSA", "RADL", "RASL"];
    const KEY_SLICES: [&str; 4] = ["IDR_W_RADL", "IDR_N_LP", "CRA", "GDR"];
    const OTHERS: [&str; 14] = [
        "OPI",
        "DCI",
        "VPS",
        "SPS",
        "PPS",
        "prefix APS",
        "suffix APS",
        "picture header",
        "AUD",
        "EOS",
        "EOB",
        "prefix SEI",
        "suffix SEI",
        "filler",
    ];
    match unit_type {
        0..=3 => SLICES[usize::from(unit_type)],
        7..=10 => KEY_SLICES[usize::from(unit_type - 7)],
        12..=25 => OTHERS[usize::from(unit_type - 12)],
        _ => "reserved",
    }
}

/// A packet's type by its name.
pub fn packet_name(codec: Codec, packet_type: u8) -> &'static str {
    match (codec, packet_type) {
        (Codec::H264, 24) => "STAP-A",
        (Codec::H264, 25) => "STAP-B",
        (Codec::H264, 26) => "MTAP16",
        (Codec::H264, 27) => "MTAP24",
        (Codec::H264, 28) => "FU-A",
        (Codec::H264, 29) => "FU-B",
        (Codec::H265, 48) | (Codec::H266, 28) => "AP",
        (Codec::H265, 49) | (Codec::H266, 29) => "FU",
        (Codec::H265, 50) => "PACI",
        _ => "single",
    }
}
