//! Access units of packets that are given one by one.

use crate::proved::h26x_assembler::AccessUnitAssembler;
use crate::proved::h26x_receiver::SequencedDepacketizer;
use crate::proved::h26x_reorder::RtpPacket;
use crate::proved::h264_payload::H264Depacketizer;

/// A peer that sends units of 6 bytes in one access unit, without a marker; its limit is 12.
#[test]
fn an_access_unit_that_does_not_end() {
    let sequenced = SequencedDepacketizer::new(H264Depacketizer::new(), 100);
    let mut assembler = AccessUnitAssembler::new(sequenced, 12);
    let mut units = Vec::new();
    for (sequence, bytes_len) in [(1, 6), (2, 12), (3, 0), (4, 6)] {
        let packet = RtpPacket {
            sequence,
            timestamp: 3000,
            marker: false,
            payload: &[0x61, 1],
        };
        assembler.receive(&packet, &mut units).expect("memory");
        assert_eq!(assembler.unit.bytes_len(), bytes_len, "{sequence}");
    }
    assembler.finish(&mut units).expect("memory");
    assert_eq!(units.len(), 1);
    assert_eq!((units[0].is_whole, units[0].bytes.len()), (false, 6));
}
