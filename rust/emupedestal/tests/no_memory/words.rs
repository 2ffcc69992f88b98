//! Header words are numbers, and units are cut where they stand: making, reading and cutting take no memory.

use crate::proved::h26x_core::{
    H265FragmentationUnitHeader, H265NALUHeader, H265TSCI, H266FragmentationUnitHeader,
    H266NALUHeader,
};
use crate::proved::h26x_cut::{ZeroRule, next_unit, units};
use crate::refusing::without_memory;

#[test]
fn headers_of_h265() {
    without_memory(|| {
        let header = H265NALUHeader::new(0x26, 1);
        let fields = (header.nalu_type(), header.layer_id(), header.tid());
        assert!(header == H265NALUHeader::new_with_type(19, 0, 1) && fields == (19, 0, 1));
        assert!(header.is_type_vcl_unit() && header.is_idr_picture() && header.is_irap());
        assert!(!header.f() && !header.is_aggregation_packet());
        assert!(!header.is_fragmentation_unit() && !header.is_paci_packet());
    });
}

#[test]
fn marks_of_h265() {
    without_memory(|| {
        let marks = H265FragmentationUnitHeader::new(true, false, 19);
        assert!((marks.s(), marks.e(), marks.fu_type()) == (true, false, 19));
    });
}

#[test]
fn words_of_tsci() {
    without_memory(|| {
        let tsci = H265TSCI(0x1122_3300);
        let fields = [tsci.tl0picidx(), tsci.irap_pic_id(), tsci.res()];
        assert!(fields == [0x11, 0x22, 0x33] && !tsci.s() && !tsci.e());
    });
}

#[test]
fn headers_of_h266() {
    without_memory(|| {
        let header = H266NALUHeader::new(0, 0x39);
        let fields = (header.nalu_type(), header.layer_id(), header.tid());
        assert!(header == H266NALUHeader::new_with_type(7, 0, 1) && fields == (7, 0, 1));
        assert!(header.is_irap() && !header.f() && !header.z());
        assert!(!header.is_aggregation_packet() && !header.is_fragmentation_unit());
    });
}

#[test]
fn marks_of_h266() {
    without_memory(|| {
        let marks = H266FragmentationUnitHeader::new(true, false, false, 7);
        let bits = [marks.s(), marks.e(), marks.p()];
        assert!(bits == [true, false, false] && marks.fu_type() == 7);
    });
}

/// Two units, with zeros before the second start code and at the end.
const PAYLOAD: [u8; 11] = [0, 0, 1, 0xaa, 0, 0, 0, 0, 1, 0xbb, 0];

#[test]
fn units_of_a_payload() {
    let found = |rule| {
        let mut found = units(&PAYLOAD, rule);
        [found.next(), found.next(), found.next()]
    };
    without_memory(|| {
        let want: [Option<&[u8]>; 3] = [Some(&[0xaa]), Some(&[0xbb, 0]), None];
        assert!(found(ZeroRule::All) == want);
        let want: [Option<&[u8]>; 3] = [Some(&[0xaa, 0]), Some(&[0xbb, 0]), None];
        assert!(found(ZeroRule::AtMostThree) == want);
    });
}

#[test]
fn places_of_units() {
    without_memory(|| {
        let places = [
            next_unit(&PAYLOAD, ZeroRule::All, 0),
            next_unit(&PAYLOAD, ZeroRule::AtMostThree, 0),
            next_unit(&PAYLOAD, ZeroRule::All, 4),
            next_unit(&PAYLOAD, ZeroRule::All, 11),
        ];
        assert!(places == [Some(3..4), Some(3..5), Some(9..11), None]);
    });
}
