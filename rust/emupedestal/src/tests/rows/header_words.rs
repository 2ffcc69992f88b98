//! Header words, by their constructors and their fields.

use super::Answers;
use super::row::{Words, fact, hex_number, number};
use super::said::Said;
use crate::proved::h26x_core::{
    AUD_NALU_TYPE, FILLER_NALU_TYPE, FU_END_BITMASK, FU_START_BITMASK, FUA_HEADER_SIZE,
    FUA_NALU_TYPE, FUB_NALU_TYPE, H264CodecExtra, H265CodecExtra, H265FragmentationUnitHeader,
    H265NALUHeader, H265TSCI, H266CodecExtra, H266FragmentationUnitHeader, H266NALUHeader,
    IDR_NALU_TYPE, NALU_REF_IDC_BITMASK, NALU_TYPE_BITMASK, OUTPUT_STAP_AHEADER, PPS_NALU_TYPE,
    SPS_NALU_TYPE, STAPA_HEADER_SIZE, STAPA_NALU_LENGTH_SIZE, STAPA_NALU_TYPE,
};
use crate::proved::{h26x_core, h264_payload, h265_payload, h266_payload};

/// Each row is of a word, or of what makes one.
pub(super) struct HeaderWords;

impl Answers for HeaderWords {
    fn answer(&mut self, name: &str, words: &mut Words<'_>, said: &mut Said) {
        match name {
            "defaults" => say_defaults(said),
            "constants" => say_constants(said),
            name if name.starts_with("h265") => answer_of_h265(name, words, said),
            name => answer_of_h266(name, words, said),
        }
    }
}

fn answer_of_h265(name: &str, words: &mut Words<'_>, said: &mut Said) {
    match name {
        "h265-header" => say_h265(said, H265NALUHeader(hex_number(words))),
        "h265-header-of" => {
            let it = H265NALUHeader::new(hex_number(words), hex_number(words));
            said.bytes(&it.0.to_be_bytes());
        }
        "h265-header-with" => {
            let it = H265NALUHeader::new_with_type(number(words), number(words), number(words));
            said.bytes(&it.0.to_be_bytes());
        }
        "h265-fragment" => {
            let it = H265FragmentationUnitHeader(hex_number(words));
            said.fact(it.s());
            said.fact(it.e());
            said.value(it.fu_type());
        }
        "h265-fragment-of" => {
            let it = H265FragmentationUnitHeader::new(fact(words), fact(words), number(words));
            said.bytes(&[it.0]);
        }
        "h265-tsci" => say_tsci(said, H265TSCI(hex_number(words))),
        _ => panic!("no call {name}"),
    }
}

fn answer_of_h266(name: &str, words: &mut Words<'_>, said: &mut Said) {
    match name {
        "h266-header" => say_h266(said, H266NALUHeader(hex_number(words))),
        "h266-header-of" => {
            let it = H266NALUHeader::new(hex_number(words), hex_number(words));
            said.bytes(&it.0.to_be_bytes());
        }
        "h266-header-with" => {
            let it = H266NALUHeader::new_with_type(number(words), number(words), number(words));
            said.bytes(&it.0.to_be_bytes());
        }
        "h266-fragment" => {
            let it = H266FragmentationUnitHeader(hex_number(words));
            said.fact(it.s());
            said.fact(it.e());
            said.fact(it.p());
            said.value(it.fu_type());
        }
        "h266-fragment-of" => {
            let (s, e, p) = (fact(words), fact(words), fact(words));
            let it = H266FragmentationUnitHeader::new(s, e, p, number(words));
            said.bytes(&[it.0]);
        }
        _ => panic!("no call {name}"),
    }
}

/// F, the type, the layer and the temporal id, and then what the type is.
fn say_h265(said: &mut Said, it: H265NALUHeader) {
    said.fact(it.f());
    for field in [it.nalu_type(), it.layer_id(), it.tid()] {
        said.value(field);
    }
    let kinds = [
        (it.is_type_vcl_unit(), "vcl"),
        (it.is_aggregation_packet(), "aggregate"),
        (it.is_fragmentation_unit(), "fragment"),
        (it.is_paci_packet(), "paci"),
        (it.is_idr_picture(), "idr"),
        (it.is_irap(), "irap"),
    ];
    say_kinds(said, &kinds);
}

fn say_kinds(said: &mut Said, kinds: &[(bool, &str)]) {
    for (_, name) in kinds.iter().filter(|(is_one, _)| *is_one) {
        said.word(name);
    }
}

/// TL0PICIDX, IrapPicID, S, E and RES.
fn say_tsci(said: &mut Said, it: H265TSCI) {
    said.value(it.tl0picidx());
    said.value(it.irap_pic_id());
    said.fact(it.s());
    said.fact(it.e());
    said.value(it.res());
}

/// F, Z, the layer, the type and the temporal id, and then what the type is.
fn say_h266(said: &mut Said, it: H266NALUHeader) {
    said.fact(it.f());
    said.fact(it.z());
    for field in [it.layer_id(), it.nalu_type(), it.tid()] {
        said.value(field);
    }
    let kinds = [
        (it.is_irap(), "irap"),
        (it.is_aggregation_packet(), "aggregate"),
        (it.is_fragmentation_unit(), "fragment"),
    ];
    say_kinds(said, &kinds);
}

/// The words that stand for none.
fn say_defaults(said: &mut Said) {
    said.value(H265NALUHeader::default().0);
    said.value(H265FragmentationUnitHeader::default().0);
    said.value(H265TSCI::default().0);
    said.value(H266NALUHeader::default().0);
    said.value(H266FragmentationUnitHeader::default().0);
    said.fact(H264CodecExtra::default().is_keyframe);
    said.fact(H265CodecExtra::default().is_keyframe);
    said.fact(H266CodecExtra::default().is_keyframe);
}

/// Those of RFC 6184, and the start code by each name that it has.
fn say_constants(said: &mut Said) {
    for nalu_type in [
        STAPA_NALU_TYPE,
        FUA_NALU_TYPE,
        FUB_NALU_TYPE,
        IDR_NALU_TYPE,
        SPS_NALU_TYPE,
        PPS_NALU_TYPE,
        AUD_NALU_TYPE,
        FILLER_NALU_TYPE,
    ] {
        said.value(nalu_type);
    }
    for size in [FUA_HEADER_SIZE, STAPA_HEADER_SIZE, STAPA_NALU_LENGTH_SIZE] {
        said.value(size);
    }
    said.bytes(&[NALU_TYPE_BITMASK, NALU_REF_IDC_BITMASK]);
    said.bytes(&[FU_START_BITMASK, FU_END_BITMASK]);
    said.bytes(&[OUTPUT_STAP_AHEADER]);
    for start_code in [
        h26x_core::ANNEXB_NALUSTART_CODE,
        h264_payload::ANNEXB_NALUSTART_CODE,
        h265_payload::ANNEXB_NALUSTART_CODE,
        h266_payload::ANNEXB_NALUSTART_CODE,
    ] {
        said.bytes(&start_code);
    }
}
