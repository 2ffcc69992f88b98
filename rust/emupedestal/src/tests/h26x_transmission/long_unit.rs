//! A long unit through both endpoints.

use crate::tests::told;
use crate::transmission::carry;
use crate::{Codec, CodecExtra, H264Depacketizer, H264Packetizer};

/// A unit of 100,000 bytes without a zero, no two of whose fragments at 1200 are alike.
#[test]
fn a_long_unit() {
    let bytes = (0..100_000_u32).map(|place| (place % 251 + 1) as u8);
    let mut unit: Vec<u8> = bytes.collect();
    unit[0] = 0x65;
    for (limit, is_avc, lead) in [
        (200_000, false, [0, 0, 0, 1]),
        (200_000, true, [0, 1, 0x86, 0xa0]),
        (1200, false, [0, 0, 0, 1]),
        (1200, true, [0, 1, 0x86, 0xa0]),
    ] {
        let (mut p, mut d) = (H264Packetizer::new(), H264Depacketizer::new());
        d.is_avc = is_avc;
        let (mut out, mut extra) = (Vec::new(), CodecExtra::None);
        let calls = [(limit, &unit)];
        let carried = carry(&mut p, &mut d, &calls, &mut out, &mut extra).expect("memory");
        assert_eq!(carried.made, [true]);
        assert_eq!(extra, told(Codec::H264, true));
        assert!(
            out.strip_prefix(&lead) == Some(unit.as_slice()),
            "{limit} {is_avc}"
        );
    }
}
