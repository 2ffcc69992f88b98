//! A depacketizer that shows no packet beside one that may: the same units, extra and answers.

use crate::proved::h26x_codec::{AnyDepacketizer, AnyPayloadDepacketizer};
use crate::proved::h26x_core::Depacketizer;
use crate::proved::h26x_depacketizer::RunDepacketizer;
use crate::proved::h26x_receiver::SequencedDepacketizer;
use crate::tests::{bytes, payload};
use crate::{Codec, CodecExtra, H264CodecExtra, H265CodecExtra, H266CodecExtra};

/// Of each codec packets, the last of which is refused: a unit, an aggregate, of H.265 a PACI packet, a unit in
/// fragments and an end without a start; and their units (RFC 6184, 5; RFC 7798, 4.4; RFC 9328, 4.3).
const PACKETS: [(Codec, &[&str], &[&str], CodecExtra); 3] = [
    (
        Codec::H264,
        &[
            "65aabb",
            "78 0003 67aabb 0002 68cc",
            "7c85aa",
            "7c05bb",
            "7c45cc",
            "7c45dd",
            "7f01",
        ],
        &["65aabb", "67aabb", "68cc", "65aabbcc"],
        CodecExtra::H264(H264CodecExtra { is_keyframe: true }),
    ),
    (
        Codec::H265,
        &[
            "2601aa",
            "6001 0003 4201aa 0003 4401bb",
            "6401 0230 112233 aa",
            "620193aa",
            "620113bb",
            "620153cc",
            "620153dd",
            "8201aabb",
        ],
        &["2601aa", "4201aa", "4401bb", "0201aa", "2601aabbcc"],
        CodecExtra::H265(H265CodecExtra { is_keyframe: true }),
    ),
    (
        Codec::H266,
        &[
            "0039aa",
            "00e1 0003 0079aa 0003 0081bb",
            "00e987aa",
            "00e907bb",
            "00e947cc",
            "00e947dd",
            "8001aabb",
        ],
        &["0039aa", "0079aa", "0081bb", "0039aabbcc"],
        CodecExtra::H266(H266CodecExtra { is_keyframe: true }),
    ),
];

/// What both write and tell of packets, which is the same after each.
fn written(codec: Codec, packets: &[&str], donl: bool, avc: bool) -> (Vec<u8>, CodecExtra) {
    let mut shows = SequencedDepacketizer::new(AnyDepacketizer::new(codec), 100);
    shows.depacketizer.with_donl(donl);
    shows.depacketizer.set_avc(avc);
    let mut quiet = SequencedDepacketizer::new(AnyPayloadDepacketizer::new(codec), 100);
    quiet.depacketizer.with_donl(donl);
    quiet.depacketizer.is_avc = avc;
    let (mut out, mut extra) = (Vec::new(), CodecExtra::None);
    let (mut quiet_out, mut quiet_extra) = (Vec::new(), CodecExtra::None);
    for (number, packet) in (0..).zip(packets) {
        let packet = bytes(packet);
        assert_eq!(
            quiet.receive(number, &packet, &mut quiet_out, &mut quiet_extra),
            shows.receive(number, &packet, &mut out, &mut extra),
            "{codec:?}, {packet:x?}"
        );
        let (one, other) = (&quiet.depacketizer, &shows.depacketizer);
        assert_eq!((&quiet_out, quiet_extra), (&out, extra), "{packet:x?}");
        assert_eq!(one.run_len(), other.run_len(), "{packet:x?}");
        let marks = |it: &dyn Depacketizer| {
            [
                it.is_partition_head(&packet),
                it.is_partition_tail(false, &packet),
                it.is_partition_tail(true, &packet),
            ]
        };
        assert_eq!(marks(one), marks(other), "{packet:x?}");
    }
    assert!(
        quiet
            .depacketizer
            .is_same(&quiet.depacketizer.try_clone().unwrap())
    );
    (out, extra)
}

#[test]
fn one_that_shows_nothing_writes_and_tells_the_same() {
    for (codec, packets, units, extra) in PACKETS {
        let wanted: Vec<u8> = units
            .iter()
            .flat_map(|unit| [vec![0], payload(&[unit])].concat())
            .collect();
        assert_eq!(written(codec, packets, false, false), (wanted, extra));
        for (donl, avc) in [(true, false), (false, true), (true, true)] {
            written(codec, packets, donl, avc);
        }
    }
}

#[test]
fn settings_of_one_that_shows_nothing() {
    for codec in [Codec::H264, Codec::H265, Codec::H266] {
        let (mut it, fresh) = (
            AnyPayloadDepacketizer::new(codec),
            AnyPayloadDepacketizer::new(codec),
        );
        assert_eq!((it.codec(), it.is_avc), (codec, false));
        assert!(it.is_same(&fresh));
        it.with_donl(true);
        assert_eq!(it.is_same(&fresh), codec == Codec::H264);
        it.with_donl(false);
        it.is_avc = true;
        assert!(!it.is_same(&fresh));
    }
    let (one, other) = (AnyPayloadDepacketizer::new(Codec::H265), Codec::H266);
    assert!(!one.is_same(&AnyPayloadDepacketizer::new(other)));
}
