//! Decoding order numbers (RFC 7798, 4.4 and 4.6; RFC 9328, 4.3 and 4.4).

use crate::tests::{bytes, payload, received, refuses, sends, writes};
use crate::{
    CodecExtra, H265CodecExtra, H265Depacketizer, H265Packetizer, H266Depacketizer, H266Packetizer,
    PacketError, Packetizer,
};

fn h265_packetizer() -> H265Packetizer {
    let mut end = H265Packetizer::default();
    end.with_donl(true);
    end
}

fn h266_packetizer() -> H266Packetizer {
    let mut end = H266Packetizer::default();
    end.with_donl(true);
    end
}

fn h265_depacketizer() -> H265Depacketizer {
    let mut end = H265Depacketizer::default();
    end.with_donl(true);
    end
}

fn h266_depacketizer() -> H266Depacketizer {
    let mut end = H266Depacketizer::default();
    end.with_donl(true);
    end
}

#[test]
fn h265_units_are_numbered() {
    let end = &mut h265_packetizer();
    sends(end, 5, &bytes("0201aabb"), &[]); // dropped, so it takes no number
    sends(end, 5, &bytes("0201aa"), &["02010000aa"]);
    sends(
        end,
        6,
        &bytes("0201aabbcc"),
        &["6201810001aa", "620141bbcc"],
    );
}

#[test]
fn h265_aggregates_are_numbered() {
    let units = payload(&["40010c", "420101", "4401c1", "2601af"]);
    // DONL for the first unit, DOND 0 before each further one.
    let aggregate = "6001 0000 0003 40010c 00 0003 420101 00 0003 4401c1";
    sends(
        &mut h265_packetizer(),
        100,
        &units,
        &[aggregate, "26010003af"],
    );
    sends(
        &mut h265_packetizer(),
        20,
        &units,
        &["400100000c", "4201000101", "44010002c1", "26010003af"],
    );
    let units = payload(&["42010102", "4401c1", "2601af"]);
    sends(
        &mut h265_packetizer(),
        5,
        &units,
        &["44010000c1", "26010001af"],
    );
}

#[test]
fn h266_aggregates_are_numbered() {
    sends(
        &mut h266_packetizer(),
        1200,
        &payload(&["0079bb", "0081cc", "0039dd"]),
        &["00e1 0000 0003 0079bb 0003 0081cc", "00390002dd"],
    );
}

#[test]
fn numbers_go_from_65535_to_0() {
    let (end, unit) = (&mut h266_packetizer(), bytes("0009aa"));
    for number in 0..=u16::MAX {
        let [high, low] = number.to_be_bytes();
        let wanted = vec![vec![0x00, 0x09, high, low, 0xaa]];
        assert_eq!(end.packetize(100, &unit), Ok(wanted));
    }
    sends(end, 100, &unit, &["00090000aa"]);
}

#[test]
fn numbers_begin_anew_and_sets_stay() {
    let end = &mut h265_packetizer();
    sends(end, 100, &bytes("0201aa"), &["02010000aa"]);
    sends(end, 100, &payload(&["420101", "4401c1"]), &[]);
    end.with_donl(true);
    let aggregate = "6001 0000 0003 420101 00 0003 4401c1";
    sends(end, 100, &bytes("2601af"), &[aggregate, "26010002af"]);
    end.with_donl(false);
    sends(end, 100, &bytes("0201aa"), &["0201aa"]);
}

#[test]
fn h265_numbers_are_read() {
    writes(&mut h265_depacketizer(), &["02010005aa"], "00000001 0201aa");
    let fragments = ["6201930007aa", "620153bb"];
    writes(&mut h265_depacketizer(), &fragments, "00000001 2601aabb");
    let (out, extra) = received(
        &mut h265_depacketizer(),
        &["6001 ffff 0002 0201 01 0003 2601af"],
    );
    assert_eq!(out, bytes("00000001 0201 00000001 2601af"));
    assert_eq!(
        extra,
        CodecExtra::H265(H265CodecExtra { is_keyframe: true })
    );
}

#[test]
fn packets_without_room_for_a_number_are_refused() {
    for packet in ["02010005", "6201930007", "6001000000000000"] {
        refuses(
            &mut h265_depacketizer(),
            packet,
            PacketError::ErrShortPacket,
        );
    }
    for packet in ["00090005", "00e98700", "00e100"] {
        refuses(
            &mut h266_depacketizer(),
            packet,
            PacketError::ErrShortPacket,
        );
    }
}

#[test]
fn h266_numbers_are_read() {
    let end = &mut h266_depacketizer();
    writes(end, &["00390002dd"], "00000001 0039dd");
    writes(
        end,
        &["00e9870005aa", "00e907bb", "00e947"],
        "00000001 0039aabb",
    );
    let aggregate = "00e1 0000 0003 0079bb 0003 0081cc";
    writes(end, &[aggregate], "00000001 0079bb 00000001 0081cc");
}

#[test]
fn an_open_unit_stays_where_numbers_end() {
    let end = &mut h265_depacketizer();
    writes(end, &["6201930007aa"], "");
    end.with_donl(false);
    writes(end, &["620153bb"], "00000001 2601aabb");
}
