//! Packets with their sequence numbers: what is missing, late or too long (RFC 3550, 5.1).

use crate::tests::{bytes, writes};
use crate::{
    Codec, CodecExtra, H264CodecExtra, H265Depacketizer, H265Payload, PacketError, Received,
    SequencedDepacketizer,
};

/// A unit of each codec in three fragments of one byte each, and the unit.
const UNITS: [(Codec, [&str; 3], &str); 3] = [
    (Codec::H264, ["7c8501", "7c0502", "7c4503"], "65010203"),
    (
        Codec::H265,
        ["62019301", "62011302", "62015303"],
        "2601010203",
    ),
    (
        Codec::H266,
        ["00e98701", "00e90702", "00e94703"],
        "0039010203",
    ),
];

/// Gives packets with their numbers, and compares what becomes of each and what is written of all.
#[track_caller]
fn receives(
    end: &mut SequencedDepacketizer,
    packets: &[(u16, &str, Result<Received, PacketError>)],
    wanted: &str,
) -> CodecExtra {
    let (mut out, mut extra) = (Vec::new(), CodecExtra::None);
    for (sequence, packet, became) in packets {
        let before = (out.len(), extra, end.run_len());
        let received = end.receive(*sequence, &bytes(packet), &mut out, &mut extra);
        assert_eq!(received, *became, "{sequence}: {packet}");
        if matches!(received, Err(_) | Ok(Received::Late(_))) {
            assert_eq!((out.len(), extra, end.run_len()), before, "{packet}");
        }
    }
    assert_eq!(out, bytes(wanted), "{packets:?}");
    extra
}

const IN_ORDER: Result<Received, PacketError> = Ok(Received::InOrder);

fn behind_codes(unit: &str) -> String {
    format!("00000001 {unit}")
}

#[test]
fn a_unit_whose_packets_all_came() {
    for (codec, [start, middle, end], unit) in UNITS {
        let it = &mut SequencedDepacketizer::new(codec, 100);
        receives(
            it,
            &[
                (65534, start, IN_ORDER),
                (65535, middle, IN_ORDER),
                (0, end, IN_ORDER),
            ],
            &behind_codes(unit),
        );
    }
}

#[test]
fn no_unit_of_which_a_packet_is_missing() {
    for (codec, [start, middle, end], unit) in UNITS {
        let it = &mut SequencedDepacketizer::new(codec, 100);
        let (one, two) = (Ok(Received::Gap(1)), Ok(Received::Gap(2)));
        receives(
            it,
            &[
                (1, start, IN_ORDER),
                (3, end, one), // the middle is missing
                (4, start, IN_ORDER),
                (5, middle, IN_ORDER),
                (8, middle, two), // the end, and the start of another
                (9, end, IN_ORDER),
                (10, start, IN_ORDER),
                (11, middle, IN_ORDER),
                (12, end, IN_ORDER),
            ],
            &behind_codes(unit),
        );
    }
}

#[test]
fn which_packets_were_taken() {
    for (received, is_taken) in [
        (Received::InOrder, true),
        (Received::Gap(1), true),
        (Received::TooLong(0), true),
        (Received::Late(1), false),
    ] {
        assert_eq!(received.is_taken(), is_taken, "{received:?}");
    }
}

#[test]
fn late_and_refused_packets_leave_the_open_unit() {
    for (codec, [start, middle, end], unit) in UNITS {
        let it = &mut SequencedDepacketizer::new(codec, 100);
        receives(it, &[(7, start, IN_ORDER)], "");
        assert_eq!(it.run_len(), 1);
        receives(
            it,
            &[
                (7, start, Ok(Received::Late(1))),
                (2, middle, Ok(Received::Late(6))),
                (32776, middle, Ok(Received::Late(32768))),
                (8, "", Err(PacketError::ErrShortPacket)),
                (30, "", Err(PacketError::ErrShortPacket)),
                (8, middle, IN_ORDER),
                (9, end, IN_ORDER),
                (32777, start, Ok(Received::Gap(32767))),
            ],
            &behind_codes(unit),
        );
    }
}

#[test]
fn a_unit_that_is_too_long_is_given_up() {
    for (codec, [start, middle, end], unit) in UNITS {
        let it = &mut SequencedDepacketizer::new(codec, 2);
        let too_long = Ok(Received::TooLong(0));
        receives(
            it,
            &[
                (1, start, IN_ORDER),
                (2, middle, IN_ORDER),
                (3, middle, too_long),
                (4, end, IN_ORDER),
                (5, start, IN_ORDER),
                (6, middle, IN_ORDER),
                (7, end, IN_ORDER), // the limit is that of what stays open
            ],
            &behind_codes(unit),
        );
        let it = &mut SequencedDepacketizer::new(codec, 0);
        receives(it, &[(1, start, too_long)], "");
        receives(it, &[(4, start, Ok(Received::TooLong(2)))], "");
        assert_eq!(it.run_len(), 0);
    }
}

#[test]
fn numbers_that_bear_nothing() {
    for (codec, [start, middle, end], unit) in UNITS {
        let it = &mut SequencedDepacketizer::new(codec, 100);
        receives(it, &[(65534, start, IN_ORDER)], "");
        assert_eq!((it.skip(65535), it.run_len()), (Received::InOrder, 1));
        let rest = [
            (0, middle, IN_ORDER),
            (1, end, IN_ORDER),
            (2, start, IN_ORDER),
        ];
        receives(it, &rest, &behind_codes(unit));
        assert_eq!((it.skip(2), it.run_len()), (Received::Late(1), 1));
        assert_eq!((it.skip(5), it.run_len()), (Received::Gap(2), 0));
        receives(it, &[(6, end, IN_ORDER)], "");
    }
}

#[test]
fn a_restart_takes_any_number() {
    for (codec, [start, middle, end], unit) in UNITS {
        let it = &mut SequencedDepacketizer::new(codec, 100);
        receives(it, &[(1, start, IN_ORDER)], "");
        receives(it, &[(40000, start, Ok(Received::Late(25538)))], "");
        it.restart();
        assert_eq!(it.run_len(), 0);
        let all = [
            (40000, end, IN_ORDER),
            (40001, start, IN_ORDER),
            (40002, middle, IN_ORDER),
            (40003, end, IN_ORDER),
        ];
        receives(it, &all, &behind_codes(unit));
    }
}

#[test]
fn units_behind_lengths() {
    for (codec, [start, middle, end], unit) in UNITS {
        let mut it = SequencedDepacketizer::new(codec, 100);
        assert_eq!((it.codec(), it.is_avc()), (codec, false));
        assert_eq!(it.run_limit(), 100);
        it.set_avc(true);
        receives(&mut it, &[(1, start, IN_ORDER), (2, middle, IN_ORDER)], "");
        let mut copy = it.clone();
        assert!(copy.is_avc());
        it.set_avc(false);
        receives(&mut it, &[(3, end, IN_ORDER)], &behind_codes(unit));
        let len = bytes(unit).len();
        receives(
            &mut copy,
            &[(3, end, IN_ORDER), (3, end, Ok(Received::Late(1)))],
            &format!("{len:08x} {unit}"),
        );
    }
}

#[test]
fn decoding_order_numbers() {
    let mut h264 = SequencedDepacketizer::new(Codec::H264, 100);
    h264.with_donl(true);
    let told = receives(&mut h264, &[(1, "6501", IN_ORDER)], "00000001 6501");
    let keyframe = H264CodecExtra { is_keyframe: true };
    assert_eq!(told, CodecExtra::H264(keyframe));
    assert_eq!(h264.shown(), None);

    let mut h265 = SequencedDepacketizer::new(Codec::H265, 100);
    h265.with_donl(true);
    receives(&mut h265, &[(1, "02010005aa", IN_ORDER)], "00000001 0201aa");
    let Some(H265Payload::H265SingleNALUnitPacket(shown)) = h265.shown() else {
        panic!("a single NAL unit packet");
    };
    assert_eq!(
        (shown.donl(), shown.payload()),
        (Some(5), [0xaa].as_slice())
    );
    // A late packet and a refused one aren't shown.
    let before = h265.shown().cloned();
    let (late, short) = (Ok(Received::Late(1)), Err(PacketError::ErrShortPacket));
    receives(&mut h265, &[(1, "0201ffffbb", late), (2, "02", short)], "");
    assert_eq!(h265.shown(), before.as_ref());
    // The packet has the mark of the setting, though it bears no number itself.
    let mut other = H265Depacketizer::default();
    other.with_donl(true);
    writes(&mut other, &["620113aa"], "");
    receives(&mut h265, &[(2, "620113aa", IN_ORDER)], "");
    assert_eq!(h265.shown(), Some(other.payload()));
    h265.with_donl(false);
    receives(&mut h265, &[(3, "0201bb", IN_ORDER)], "00000001 0201bb");
    assert_ne!(h265.shown(), before.as_ref());

    let mut h266 = SequencedDepacketizer::new(Codec::H266, 100);
    h266.with_donl(true);
    receives(&mut h266, &[(1, "00390002dd", IN_ORDER)], "00000001 0039dd");
    assert_eq!(h266.shown(), None);
}

/// Empty units of an aggregate take two bytes each in the packet, and four behind a start code: more
/// than was reserved beforehand.
#[test]
fn more_is_written_than_there_was_room_for() {
    let packet = [bytes("6001"), vec![0; 2 * 100]].concat();
    let (mut out, mut extra) = (vec![7], CodecExtra::None);
    let mut end = SequencedDepacketizer::new(Codec::H265, 100);
    assert_eq!(end.receive(1, &packet, &mut out, &mut extra), IN_ORDER);
    assert_eq!(out[1..], [0, 0, 0, 1].repeat(100));
    let late = Ok(Received::Late(1));
    assert_eq!(end.receive(1, &packet, &mut out, &mut extra), late);
    assert_eq!((out[0], out.len()), (7, 401));
}
