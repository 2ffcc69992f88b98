//! Units out of packets, what is told of them, and open units (RFC 6184, 5; RFC 7798, 4.4; RFC 9328,
//! 4.3).

use crate::tests::{bytes, received, writes};
use crate::{
    CodecExtra, Depacketizer, H264CodecExtra, H264Depacketizer, H265CodecExtra, H265Depacketizer,
    H266CodecExtra, H266Depacketizer,
};

fn h264(is_keyframe: bool) -> CodecExtra {
    CodecExtra::H264(H264CodecExtra { is_keyframe })
}

fn h265(is_keyframe: bool) -> CodecExtra {
    CodecExtra::H265(H265CodecExtra { is_keyframe })
}

fn h266(is_keyframe: bool) -> CodecExtra {
    CodecExtra::H266(H266CodecExtra { is_keyframe })
}

fn avc() -> H264Depacketizer {
    let mut end = H264Depacketizer::default();
    end.is_avc = true;
    end
}

const STAP_A: &str = "78 000f 6742c01f1a32350140 7a403c2211a8 0005 681a34e3c8 00";

#[test]
fn h264_units() {
    let end = &mut H264Depacketizer::default();
    writes(end, &["909090"], "00000001 909090");
    writes(end, &["0930"], "00000001 0930");
    writes(
        end,
        &[STAP_A], // one byte is left over, and ignored
        "00000001 6742c01f1a323501407a403c2211a8 00000001 681a34e3c8",
    );
    // A unit of length 0 is skipped.
    writes(end, &["78 0000 0002 65aa"], "00000001 65aa");
    assert_eq!(received(end, &["180000"]), (vec![], CodecExtra::None));
}

#[test]
fn h264_units_behind_lengths() {
    writes(&mut avc(), &["909090"], "00000003 909090");
    writes(
        &mut avc(),
        &[STAP_A],
        "0000000f 6742c01f1a323501407a403c2211a8 00000005 681a34e3c8",
    );
    writes(
        &mut avc(),
        &[
            "1c80010203",
            "1c00040506",
            "1c00070809",
            "1c00101112",
            "1c40131415",
        ],
        "00000010 00010203040506070809101112131415",
    );
}

#[test]
fn h265_units_behind_lengths() {
    let mut end = H265Depacketizer::default();
    end.is_avc = true;
    writes(&mut end, &["0201aa"], "00000003 0201aa");
    writes(
        &mut end,
        &["6001 0003 0201aa 0002 0201"],
        "00000003 0201aa 00000002 0201",
    );
    writes(&mut end, &["64010200dd"], "00000003 0201dd");
    writes(&mut end, &["620193aa", "620153bb"], "00000004 2601aabb");
    end.is_avc = false; // the form is that of the packet that completes the unit
    assert!(received(&mut end, &["620193aa"]).0.is_empty());
    end.is_avc = true;
    writes(&mut end, &["620153bb"], "00000004 2601aabb");
}

#[test]
fn h266_units_behind_lengths() {
    let mut end = H266Depacketizer::default();
    end.is_avc = true;
    end.with_donl(true);
    writes(&mut end, &["00390002dd"], "00000003 0039dd");
    writes(
        &mut end,
        &["00e1 0000 0003 0079bb 0003 0081cc"],
        "00000003 0079bb 00000003 0081cc",
    );
    writes(
        &mut end,
        &["00e987 0005 aa", "00e947bb"],
        "00000004 0039aabb",
    );
}

#[test]
fn h264_fragments() {
    let end = &mut H264Depacketizer::default();
    writes(
        end,
        &["7c8501", "7c4502", "7c4503", "7c0504"],
        "00000001 650102",
    );
    // A second start gives up the first, and a single packet leaves what is open.
    writes(
        end,
        &["7c8501", "7c8509", "61ff", "7c4502"],
        "00000001 61ff 00000001 650902",
    );
    // S and E: a whole unit.
    writes(end, &["7cc5", "7cc509"], "00000001 65 00000001 6509");
}

#[test]
fn h265_units() {
    let end = &mut H265Depacketizer::default();
    writes(end, &["0201aa"], "00000001 0201aa");
    writes(
        end,
        &["6001 0003 0201aa 0002 0201 0009 02"], // what is left after two units is ignored
        "00000001 0201aa 00000001 0201",
    );
    writes(end, &["6001 0000 0000"], "00000001 00000001");
    writes(
        end,
        &[
            "620193aa",
            "6001 0003 0201bb 0003 0201cc",
            "64010200dd",
            "620153ee",
        ],
        "00000001 0201bb 00000001 0201cc 00000001 0201dd 00000001 2601aaee",
    );
}

#[test]
fn h265_paci_gives_its_unit_back() {
    let end = &mut H265Depacketizer::default();
    let (out, extra) = received(end, &["6401 2638 112233 aa"]);
    assert_eq!((out, extra), (bytes("00000001 2601aa"), h265(true)));
    let (out, extra) = received(end, &["6401 6000 aa"]);
    assert_eq!((out, extra), (bytes("00000001 6001aa"), h265(false)));
}

#[test]
fn h266_units() {
    let end = &mut H266Depacketizer::default();
    writes(end, &["0001abcdef"], "00000001 0001abcdef");
    writes(
        end,
        &["00e1 0003 0001aa 0003 0001bb"],
        "00000001 0001aa 00000001 0001bb",
    );
    writes(end, &["00e987aa", "00e947bb"], "00000001 0039aabb");
    assert_eq!(received(end, &["00e940aabb"]), (vec![], CodecExtra::None));
}

#[test]
fn what_stood_in_out_stays() {
    let end = &mut H264Depacketizer::default();
    let (mut out, mut extra) = (vec![1, 2, 3], CodecExtra::None);
    end.depacketize(&[0x65, 9], &mut out, &mut extra).unwrap();
    assert_eq!(out, bytes("010203 00000001 6509"));
}

/// Empty units of an aggregate take two bytes each in the packet, and four behind a start code: more
/// than was reserved beforehand.
#[test]
fn more_is_written_than_there_was_room_for() {
    let packet = [bytes("6001"), vec![0; 2 * 100]].concat();
    let (mut out, mut extra) = (Vec::new(), CodecExtra::None);
    let mut end = H265Depacketizer::default();
    end.depacketize(&packet, &mut out, &mut extra).unwrap();
    assert_eq!(out, [0, 0, 0, 1].repeat(100));
    assert_eq!(extra, CodecExtra::None);
}

#[test]
fn a_long_unit_of_many_fragments() {
    let (mut out, mut extra) = (Vec::new(), CodecExtra::None);
    let mut end = H264Depacketizer::default();
    for i in 0..500_u32 {
        let header = 5 | if i == 0 { 0x80 } else { 0 } | if i == 499 { 0x40 } else { 0 };
        let packet = [vec![0x7c, header], vec![i as u8; 1198]].concat();
        end.depacketize(&packet, &mut out, &mut extra).unwrap();
        assert_eq!(out.is_empty(), i < 499);
    }
    let data: Vec<u8> = (0..500_u32).flat_map(|i| vec![i as u8; 1198]).collect();
    assert_eq!(out, [bytes("0000000165"), data].concat());
}

#[test]
fn keyframes_are_told() {
    let key = |packets: &[&str]| received(&mut H264Depacketizer::default(), packets).1;
    assert_eq!(key(&["61ff"]), h264(false));
    assert_eq!(key(&["85"]), h264(true));
    assert_eq!(key(&["65ff", "61ff"]), h264(true)); // it was told before
    assert_eq!(key(&["7c8501"]), CodecExtra::None); // no unit is complete
    assert_eq!(key(&["7c8501", "1c4102"]), h264(false)); // the last fragment has the type
    let key = |packets: &[&str]| received(&mut H265Depacketizer::default(), packets).1;
    assert_eq!(key(&["2801aa"]), h265(true)); // type 20
    assert_eq!(key(&["2c01aa"]), h265(false)); // type 22
    let key = |packets: &[&str]| received(&mut H266Depacketizer::default(), packets).1;
    assert_eq!(key(&["0049aa"]), h266(true)); // type 9
    assert_eq!(key(&["0051aa"]), h266(false)); // type 10
}

#[test]
fn what_was_told_of_another_codec_counts_for_nothing() {
    let end = &mut H264Depacketizer::default();
    let mut extra = h266(true);
    end.depacketize(&bytes("7c8501"), &mut Vec::new(), &mut extra)
        .unwrap();
    assert_eq!(extra, h266(true)); // this packet tells nothing
    end.depacketize(&bytes("61ff"), &mut Vec::new(), &mut extra)
        .unwrap();
    assert_eq!(extra, h264(false));
}

#[test]
fn an_open_unit_is_given_up() {
    let end = &mut H264Depacketizer::default();
    writes(end, &["7c8501"], "");
    end.give_up_run();
    writes(end, &["7c4502"], "");
    writes(end, &["7c8501", "7c4502"], "00000001 650102");

    let end = &mut H265Depacketizer::default();
    writes(end, &["620193aa"], "");
    end.give_up_run();
    writes(
        end,
        &["620153bb", "620193aa", "620153bb"],
        "00000001 2601aabb",
    );

    let end = &mut H266Depacketizer::default();
    writes(end, &["00e987aa"], "");
    end.give_up_run();
    writes(
        end,
        &["00e947bb", "00e987aa", "00e947bb"],
        "00000001 0039aabb",
    );
}
