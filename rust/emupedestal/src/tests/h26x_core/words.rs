//! Header words (RFC 7798, 1.1.4 and 4.4.3; RFC 9328, 1.1.4 and 4.3.3) beside what `rows` asks of them,
//! and numbers of units and packets (tables 7-1 of H.264 and H.265, table 5 of H.266, and the RFCs).

use crate::h265_types as h265;
use crate::h266_types as h266;
use crate::*;

#[test]
fn types_of_h265() {
    let types = |is: fn(&H265NALUHeader) -> bool| -> Vec<u8> {
        (0..64)
            .filter(|nalu_type| is(&H265NALUHeader::new_with_type(*nalu_type, 0, 1)))
            .collect()
    };
    assert_eq!(
        types(H265NALUHeader::is_type_vcl_unit),
        Vec::from_iter(0..32)
    );
    assert_eq!(types(H265NALUHeader::is_aggregation_packet), [48]);
    assert_eq!(types(H265NALUHeader::is_fragmentation_unit), [49]);
    assert_eq!(types(H265NALUHeader::is_paci_packet), [50]);
    assert_eq!(types(H265NALUHeader::is_idr_picture), [19, 20]);
    assert_eq!(types(H265NALUHeader::is_irap), [16, 17, 18, 19, 20, 21]);
}

#[test]
fn types_of_h266() {
    let types = |is: fn(&H266NALUHeader) -> bool| -> Vec<u8> {
        (0..32)
            .filter(|nalu_type| is(&H266NALUHeader::new_with_type(*nalu_type, 0, 1)))
            .collect()
    };
    assert_eq!(types(H266NALUHeader::is_irap), [7, 8, 9]);
    assert_eq!(types(H266NALUHeader::is_aggregation_packet), [28]);
    assert_eq!(types(H266NALUHeader::is_fragmentation_unit), [29]);
}

/// One with the fields of another is the same, but for F, and Z of H.266.
#[test]
fn headers_of_the_same_fields() {
    for word in 0..=u16::MAX {
        let [high, low] = word.to_be_bytes();
        let it = H265NALUHeader::new(high, low);
        let made = H265NALUHeader::new_with_type(it.nalu_type(), it.layer_id(), it.tid());
        assert_eq!((it.0, made.0), (word, word & 0x7fff));
        let it = H266NALUHeader::new(high, low);
        let made = H266NALUHeader::new_with_type(it.nalu_type(), it.layer_id(), it.tid());
        assert_eq!((it.0, made.0), (word, word & 0x3fff));
    }
}

#[test]
fn fragment_headers_of_the_same_fields() {
    for byte in 0..=u8::MAX {
        let it = H265FragmentationUnitHeader(byte);
        let made = H265FragmentationUnitHeader::new(it.s(), it.e(), it.fu_type());
        assert_eq!(made, it);
        let it = H266FragmentationUnitHeader(byte);
        let made = H266FragmentationUnitHeader::new(it.s(), it.e(), it.p(), it.fu_type());
        assert_eq!(made, it);
    }
    let masked = H266FragmentationUnitHeader::new(false, false, false, 0xe1);
    assert_eq!(masked, H266FragmentationUnitHeader(0x01));
}

#[test]
fn equality() {
    assert_ne!(H265NALUHeader(0x6401), H265NALUHeader(0x6402));
    assert_ne!(
        H265FragmentationUnitHeader(0x93),
        H265FragmentationUnitHeader(0x13)
    );
    assert_ne!(H265TSCI(0x11223300), H265TSCI(0x11223301));
    assert_ne!(H266NALUHeader(0x0539), H266NALUHeader(0x4539));
    assert_ne!(
        H266FragmentationUnitHeader(0x27),
        H266FragmentationUnitHeader(0x07)
    );
}

#[test]
fn no_keyframe_is_told_of_before_a_unit_is() {
    assert!(!H264CodecExtra::default().is_keyframe);
    assert!(!H265CodecExtra::default().is_keyframe);
    assert!(!H266CodecExtra::default().is_keyframe);
}

#[test]
fn numbers_of_units_and_packets() {
    for (number, wanted) in [
        (STAPA_NALU_TYPE, 24),
        (FUA_NALU_TYPE, 28),
        (FUB_NALU_TYPE, 29),
        (IDR_NALU_TYPE, 5),
        (SPS_NALU_TYPE, 7),
        (PPS_NALU_TYPE, 8),
        (AUD_NALU_TYPE, 9),
        (FILLER_NALU_TYPE, 12),
        (NALU_TYPE_BITMASK, 0x1f),
        (NALU_REF_IDC_BITMASK, 0x60),
        (FU_START_BITMASK, 0x80),
        (FU_END_BITMASK, 0x40),
        (OUTPUT_STAP_AHEADER, 0x78),
    ] {
        assert_eq!(number, wanted);
    }
    assert_eq!(
        (FUA_HEADER_SIZE, STAPA_HEADER_SIZE, STAPA_NALU_LENGTH_SIZE),
        (2, 1, 2)
    );
    let start_codes = [
        ANNEXB_NALUSTART_CODE,
        proved::h264_payload::ANNEXB_NALUSTART_CODE,
        proved::h265_payload::ANNEXB_NALUSTART_CODE,
        proved::h266_payload::ANNEXB_NALUSTART_CODE,
    ];
    assert_eq!(start_codes, [[0, 0, 0, 1]; 4]);

    let bla = [h265::BLA_W_LP, h265::BLA_W_RADL, h265::BLA_N_LP];
    let others = [h265::IDR_W_RADL, h265::IDR_N_LP, h265::CRA_NUT];
    assert_eq!((bla, others), ([16, 17, 18], [19, 20, 21]));
    let sets = [h265::VPS_NUT, h265::SPS_NUT, h265::PPS_NUT];
    assert_eq!(sets, [32, 33, 34]);
    assert_eq!((h265::AUD_NUT, h265::FD_NUT), (35, 38));
    let packets = [
        h265::AGGREGATION_PACKET,
        h265::FRAGMENTATION_UNIT,
        h265::PACI_PACKET,
    ];
    assert_eq!(packets, [48, 49, 50]);
    let sizes = [h265::NALU_HEADER_SIZE, h265::FRAGMENTATION_UNIT_HEADER_SIZE];
    assert_eq!((sizes, h265::PACI_MAX_PHES_SIZE), ([2, 1], 31));

    let pictures = [
        h266::IDR_W_RADL,
        h266::IDR_N_LP,
        h266::CRA_NUT,
        h266::GDR_NUT,
    ];
    assert_eq!(pictures, [7, 8, 9, 10]);
    let sets = [h266::VPS_NUT, h266::SPS_NUT, h266::PPS_NUT];
    assert_eq!((sets, h266::AUD_NUT, h266::FD_NUT), ([14, 15, 16], 20, 25));
    let packets = [h266::AGGREGATION_PACKET, h266::FRAGMENTATION_UNIT];
    assert_eq!(packets, [28, 29]);
    let sizes = [h266::NALU_HEADER_SIZE, h266::FRAGMENTATION_UNIT_HEADER_SIZE];
    assert_eq!(sizes, [2, 1]);
}

/// The numbers are those that packets bear.
#[test]
fn numbers_in_packets() {
    let mut h264 = H264Packetizer::default();
    let sets = [0, 0, 1, 0x67, 1, 0, 0, 1, 0x68, 2];
    assert_eq!(h264.packetize(1200, &sets), Ok(vec![]));
    let packets = h264.packetize(4, &[0x65, 1, 2, 3, 4]).unwrap();
    let types = packets.iter().map(|packet| packet[0] & NALU_TYPE_BITMASK);
    let (sps, pps) = (SPS_NALU_TYPE, PPS_NALU_TYPE);
    assert_eq!(
        Vec::from_iter(types),
        [sps, pps, FUA_NALU_TYPE, FUA_NALU_TYPE]
    );
    assert_eq!(packets[2][1], FU_START_BITMASK | IDR_NALU_TYPE);
    assert_eq!(packets[3][1], FU_END_BITMASK | IDR_NALU_TYPE);

    let unit = [0x26, 0x01, 1, 2];
    let packet = H265Packetizer::default().packetize(4, &[&unit[..], &[3]].concat());
    let packets = packet.unwrap();
    let header = H265NALUHeader::new(packets[0][0], packets[0][1]);
    assert_eq!(
        header,
        H265NALUHeader::new_with_type(h265::FRAGMENTATION_UNIT, 0, 1)
    );
    let first = H265FragmentationUnitHeader::new(true, false, h265::IDR_W_RADL);
    assert_eq!(packets[0][h265::NALU_HEADER_SIZE], first.0);

    let packets = H266Packetizer::default().packetize(4, &[0x00, 0x39, 1, 2, 3]);
    let packets = packets.unwrap();
    let header = H266NALUHeader::new(packets[2][0], packets[2][1]);
    assert_eq!(
        header,
        H266NALUHeader::new_with_type(h266::FRAGMENTATION_UNIT, 0, 1)
    );
    let last = H266FragmentationUnitHeader::new(false, true, false, h266::IDR_W_RADL);
    assert_eq!(packets[2][h266::NALU_HEADER_SIZE], last.0);
}
