//! Copies, equality and debug text.

use crate::tests::{bytes, payload, sends, writes};
use crate::{
    Codec, Depacketizer, H264Depacketizer, H264Packetizer, H265Depacketizer, H265Packetizer,
    H266Depacketizer, H266Packetizer, SequencedDepacketizer,
};
use std::fmt::Debug;

#[test]
fn copies_of_packetizers_have_what_waits() {
    let h264 = &mut H264Packetizer::default();
    sends(h264, 1500, &payload(&["070001", "080203"]), &[]);
    for end in [&mut h264.clone(), h264] {
        sends(
            end,
            1500,
            &bytes("050405"),
            &["7800030700010003080203", "050405"],
        );
    }

    let h265 = &mut H265Packetizer::default();
    h265.with_donl(true);
    h265.with_max_packet_size(6);
    sends(h265, 100, &bytes("0201aa"), &["02010000aa"]);
    for end in [&mut h265.clone(), h265] {
        sends(
            end,
            100,
            &bytes("0201aabbcc"),
            &["6201810001aa", "620141bbcc"],
        );
    }

    let h266 = &mut H266Packetizer::default();
    sends(h266, 100, &payload(&["0079bb", "0081cc"]), &[]);
    for end in [&mut h266.clone(), h266] {
        let aggregate = "00e1 0003 0079bb 0003 0081cc";
        sends(end, 100, &bytes("0039dd"), &[aggregate, "0039dd"]);
    }
}

/// A copy has the open unit, is equal, and goes its own way. `packets` are of one unit, in order.
fn check_copies<D>(mut end: D, packets: [&str; 3], wanted: &str)
where
    D: Depacketizer + Default + Clone + Eq + Debug,
{
    assert_eq!(end, D::default());
    writes(&mut end, &packets[..2], "");
    assert_ne!(end, D::default());
    let mut copy = end.clone();
    assert_eq!((&copy, &end), (&end, &copy));
    assert!(D::eq(&end, &end));
    writes(&mut copy, &packets[2..], wanted);
    assert_ne!(copy, end);
    writes(&mut end, &packets[2..], wanted);
    assert_eq!(copy, end);
}

#[test]
fn copies_of_depacketizers_have_the_open_unit() {
    let end = H264Depacketizer::default();
    check_copies(end, ["7c8501", "7c0502", "7c4503"], "00000001 65010203");
    let end = H265Depacketizer::default();
    check_copies(
        end,
        ["620193aa", "620113bb", "620153cc"],
        "00000001 2601aabbcc",
    );
    let end = H266Depacketizer::default();
    check_copies(
        end,
        ["00e987aa", "00e907bb", "00e947cc"],
        "00000001 0039aabbcc",
    );
}

#[test]
fn settings_count_in_equality() {
    let mut h264 = H264Depacketizer::default();
    h264.is_avc = true;
    assert_ne!(h264, H264Depacketizer::default());
    assert!(h264.clone().is_avc);
    writes(&mut h264, &["65aa"], "00000002 65aa");
    h264.is_avc = false; // the setting alone counts, not that of earlier packets
    assert_eq!(h264, H264Depacketizer::default());

    let mut h265 = H265Depacketizer::default();
    h265.with_donl(true);
    assert_ne!(h265, H265Depacketizer::default());
    h265.with_donl(false);
    assert_eq!(h265, H265Depacketizer::default());
    h265.is_avc = true;
    assert_ne!(h265, H265Depacketizer::default());

    let mut h266 = H266Depacketizer::default();
    h266.with_donl(true);
    assert_ne!(h266, H266Depacketizer::default());
    assert_eq!(h266.clone(), h266);
    h266.with_donl(false);
    h266.is_avc = true;
    assert_ne!(h266, H266Depacketizer::default());
    assert!(h266.clone().is_avc);
}

/// Only H.265 shows the packet that it accepted last.
#[test]
fn the_packet_accepted_last_counts_for_h265() {
    let mut h264 = H264Depacketizer::default();
    writes(&mut h264, &["65aa"], "00000001 65aa");
    assert_eq!(h264, H264Depacketizer::default());
    let mut h265 = H265Depacketizer::default();
    writes(&mut h265, &["0201aa"], "00000001 0201aa");
    assert_ne!(h265, H265Depacketizer::default());
    let mut h266 = H266Depacketizer::default();
    writes(&mut h266, &["0001aa"], "00000001 0001aa");
    assert_eq!(h266, H266Depacketizer::default());
}

#[test]
fn debug_text_names_the_type_and_what_is_public() {
    let text = format!("{:?}", H264Depacketizer::default());
    assert!(text.starts_with("H264Depacketizer { is_avc: false, "));
    let text = format!("{:?}", H266Packetizer::default());
    assert!(text.starts_with("H266Packetizer { "));
    let text = format!("{:?}", SequencedDepacketizer::new(Codec::H265, 9));
    assert!(text.starts_with("SequencedDepacketizer { ") && text.contains("is_avc: false"));
}
