//! Ends in other threads: what may go there and be shared.

use crate::tests::{bytes, writes};
use crate::*;
use std::panic::{RefUnwindSafe, UnwindSafe};
use std::sync::Arc;
use std::sync::mpsc::channel;
use std::thread;
use std::time::Duration;

#[test]
fn all_types_may_be_shared_between_threads() {
    fn shared<T: Send + Sync + UnwindSafe>() {}
    fn check<T: Send + Sync + UnwindSafe + RefUnwindSafe>() {}
    macro_rules! each {
        ($($name:ty),* $(,)?) => { $(check::<$name>();)* };
    }
    each!(H264Packetizer, H265Packetizer, H266Packetizer);
    each!(H264Depacketizer, H265Depacketizer, H266Depacketizer);
    each!(SequencedDepacketizer, Received, Packets, PacketIter, Units);
    each!(AccessUnitAssembler, ReorderBuffer, Pushed);
    each!(AccessUnit, RtpPacket, HeldPacket);
    each!(
        rtp::RtpDatagram,
        rtp::RtpElements,
        rtp::RtxPayload,
        rtp::RedPayload,
        rtp::RedBlocks
    );
    each!(Codec, CodecExtra, PacketError, EveryUnitError, Packing);
    each!(H264CodecExtra, H265CodecExtra, H266CodecExtra);
    each!(H265Payload, H265SingleNALUnitPacket, H265PACIPacket);
    each!(H265FragmentationUnitPacket, H265AggregationPacket);
    each!(H265AggregationUnit, H265AggregationUnitFirst);
    each!(H265NALUHeader, H265FragmentationUnitHeader, H265TSCI);
    each!(H266NALUHeader, H266FragmentationUnitHeader);
    each!(H264Profile, H264ProfileIdc, H264LevelIdc, H264ProfileLevel);
    each!(H265Profile, H265Tier, H265Level, H265ProfileTierLevel);
    each!(H266Profile, H266Tier, H266Level, H266ProfileTierLevel);
    // In their boxes anything may be that is unwind safe.
    shared::<CodecPacketizer>();
    shared::<CodecDepacketizer>();
}

#[test]
fn ends_go_into_boxes_of_traits() {
    type Sends = Box<dyn Packetizer + Send + Sync + UnwindSafe>;
    type Receives = Box<dyn Depacketizer + Send + Sync + UnwindSafe>;
    let sends: [Sends; 4] = [
        Box::new(H264Packetizer::default()),
        Box::new(H265Packetizer::default()),
        Box::new(H266Packetizer::default()),
        Box::new(CodecPacketizer::new(Codec::H264)),
    ];
    let receives: [Receives; 4] = [
        Box::new(H264Depacketizer::default()),
        Box::new(H265Depacketizer::default()),
        Box::new(H266Depacketizer::default()),
        Box::new(CodecDepacketizer::new(Codec::H264)),
    ];
    for ((mut sends, mut receives), unit) in
        sends
            .into_iter()
            .zip(receives)
            .zip(["65010203", "2601aabbcc", "0039aabbcc", "65010203"])
    {
        let packets = sends.packetize(1200, &bytes(unit)).unwrap();
        assert_eq!(packets, [bytes(unit)]);
        writes(&mut *receives, &[unit], &format!("00000001 {unit}"));
    }
}

#[test]
fn an_open_unit_goes_on_in_another_thread() {
    let mut end = H265Depacketizer::default();
    writes(&mut end, &["620193aa"], "");
    let mut sequenced = SequencedDepacketizer::new(Codec::H265, 100);
    let (mut out, mut extra) = (Vec::new(), CodecExtra::None);
    let start = sequenced.receive(1, &bytes("620193aa"), &mut out, &mut extra);
    assert_eq!((start, out.len()), (Ok(Received::InOrder), 0));
    let finish = thread::spawn(move || {
        writes(&mut end, &["620153bb"], "00000001 2601aabb");
        let end_of_unit = sequenced.receive(2, &bytes("620153bb"), &mut out, &mut extra);
        assert_eq!(end_of_unit, Ok(Received::InOrder));
        assert_eq!(out, bytes("00000001 2601aabb"));
        end
    });
    let mut end = finish.join().unwrap();
    writes(&mut end, &["0201cc"], "00000001 0201cc");
}

/// Threads that look at the same ends answer what one does.
#[test]
fn threads_look_at_the_same_ends() {
    let mut end = H265Depacketizer::default();
    writes(&mut end, &["620193aa"], "");
    let mut sequenced = SequencedDepacketizer::new(Codec::H265, 100);
    sequenced
        .receive(
            1,
            &bytes("620193aabb"),
            &mut Vec::new(),
            &mut CodecExtra::None,
        )
        .unwrap();
    let look = || {
        for _ in 0..200 {
            let H265Payload::H265FragmentationUnitPacket(shown) = end.payload() else {
                panic!("a fragment");
            };
            assert_eq!(shown.payload(), [0xaa]);
            let mut copy = end.clone();
            assert_eq!(copy, end);
            writes(&mut copy, &["620153bb"], "00000001 2601aabb");
            assert_eq!((sequenced.run_len(), sequenced.clone().run_len()), (2, 2));
        }
    };
    thread::scope(|scope| {
        (0..4).for_each(|_| drop(scope.spawn(look)));
    });
    writes(&mut end, &["620153cc"], "00000001 2601aacc");
}

/// Each of two threads compares the same two, in another order. They don't wait for one another.
#[test]
fn two_threads_compare_the_same_two() {
    let ends = Arc::new([H264Depacketizer::default(), H264Depacketizer::default()]);
    let (done, both) = channel();
    for (a, b) in [(0, 1), (1, 0)] {
        let (ends, done) = (ends.clone(), done.clone());
        thread::spawn(move || {
            let same = (0..20_000).all(|_| ends[a] == ends[b]);
            done.send(same).unwrap();
        });
    }
    for _ in 0..2 {
        assert_eq!(both.recv_timeout(Duration::from_secs(60)), Ok(true));
    }
}
