//! Emupedestal behind another crate's traits: how a media server whose payload layer has str0m's form
//! takes it in, with one box for each stream, whatever its codec.
//!
//!     cargo run --example str0m_dispatch
//!
//! `host` stands for that payload layer, with its own errors, extras and codecs, and `adapter` is what
//! is added to it. The program sends a small stream of each codec through such boxes, receives it in
//! another thread, and checks what came.

use std::thread;

#[path = "str0m_dispatch/adapter.rs"]
mod adapter;
#[path = "str0m_dispatch/host.rs"]
mod host;

use host::{Codec, CodecExtra, PacketError};

/// The largest RTP payload, in bytes: so small that the pictures below go in fragments.
const LIMIT: usize = 16;

/// A small stream: parameter sets and a keyframe, and then another picture, behind start codes.
struct Stream {
    codec: Codec,
    sprop_max_don_diff: Option<u32>,
    keyframe: Vec<u8>,
    picture: Vec<u8>,
    /// How many packets they take.
    packets: [usize; 2],
    /// A packet that is refused, and why.
    refused: (&'static [u8], PacketError),
}

/// Units behind start codes. Each is a header and so many bytes.
fn frame(units: &[(&[u8], u8)]) -> Vec<u8> {
    let mut frame = Vec::new();
    for (header, len) in units {
        frame.extend([0, 0, 0, 1]);
        frame.extend_from_slice(header);
        frame.extend(1..=*len);
    }
    frame
}

fn streams() -> [Stream; 4] {
    [
        // An SPS and a PPS go in one STAP-A of 1 + (2 + 4) + (2 + 3) bytes, and a slice of 29 bytes in
        // fragments of 14 bytes of data (RFC 6184, 5.7.1 and 5.8).
        Stream {
            codec: Codec::H264,
            sprop_max_don_diff: None,
            keyframe: frame(&[(&[0x67], 3), (&[0x68], 2), (&[0x65], 28)]),
            picture: frame(&[(&[0x41], 15)]),
            packets: [3, 1],
            refused: (&[0x1d, 0x80], PacketError::NaluTypeIsNotHandled(29)),
        },
        // A VPS, an SPS and a PPS are too long for one packet with numbers, so each goes alone; a
        // slice in fragments of 13 bytes of data, of which a number takes 2 of the first (RFC 7798,
        // 4.4.1 to 4.4.3).
        Stream {
            codec: Codec::H265,
            sprop_max_don_diff: Some(2),
            keyframe: frame(&[
                (&[0x40, 0x01], 2),
                (&[0x42, 0x01], 2),
                (&[0x44, 0x01], 2),
                (&[0x26, 0x01], 24),
            ]),
            picture: frame(&[(&[0x02, 0x01], 12)]),
            packets: [5, 1],
            refused: (&[0x82, 0x01, 0, 0, 1], PacketError::ErrH265CorruptedPacket),
        },
        // An SPS and a PPS go in one aggregate of 2 + (2 + 4) + (2 + 4) bytes, and a slice in fragments
        // of 13 bytes of data (RFC 9328, 4.3.2 and 4.3.3).
        Stream {
            codec: Codec::H266,
            sprop_max_don_diff: Some(0),
            keyframe: frame(&[(&[0x00, 0x79], 2), (&[0x00, 0x81], 2), (&[0x00, 0x39], 26)]),
            picture: frame(&[(&[0x00, 0x01], 15)]),
            packets: [3, 2],
            refused: (&[0x00, 0xe9], PacketError::ErrShortPacket),
        },
        // The host's own codec, which cuts nothing.
        Stream {
            codec: Codec::Opus,
            sprop_max_don_diff: None,
            keyframe: vec![7; 20],
            picture: vec![8; 9],
            packets: [1, 1],
            refused: (&[], PacketError::ErrShortPacket),
        },
    ]
}

/// The packets of a frame, each with its marker bit.
fn send(packetizer: &mut host::BoxedPacketizer, frame: &[u8]) -> Vec<(bool, Vec<u8>)> {
    let packets = packetizer.packetize(LIMIT, frame).expect("memory");
    let mut marked = Vec::new();
    for (i, packet) in packets.iter().enumerate() {
        let previous = i.checked_sub(1).map(|before| packets[before].as_slice());
        let marker = packetizer.is_marker(packet, previous, i + 1 == packets.len());
        marked.push((marker, packet.clone()));
    }
    marked
}

/// What the packets of a frame bring. The marker tells where it ends.
fn receive(
    depacketizer: &mut host::BoxedDepacketizer,
    packets: &[(bool, Vec<u8>)],
) -> (Vec<u8>, CodecExtra) {
    let size = packets.iter().map(|it| it.1.len()).sum();
    let mut out = Vec::with_capacity(depacketizer.out_size_hint(size).unwrap_or(size));
    let mut extra = CodecExtra::None;
    assert!(depacketizer.is_partition_head(&packets[0].1));
    for (i, (marker, packet)) in packets.iter().enumerate() {
        let is_last = i + 1 == packets.len();
        assert_eq!(*marker, is_last, "the last alone is marked");
        assert_eq!(depacketizer.is_partition_tail(*marker, packet), is_last);
        depacketizer
            .depacketize(packet, &mut out, &mut extra)
            .expect("a packet of this codec");
    }
    (out, extra)
}

/// Sends a stream and receives it again.
fn check(stream: Stream) {
    let (codec, max_don_diff) = (stream.codec, stream.sprop_max_don_diff);
    let mut packetizer = adapter::packetizer(codec, max_don_diff);
    let is_video = codec != Codec::Opus;
    assert_eq!(
        (packetizer.nackable(), packetizer.marks_talkspurt()),
        (is_video, false)
    );
    let frames = [&stream.keyframe, &stream.picture].map(|frame| send(&mut packetizer, frame));
    assert_eq!(frames.each_ref().map(Vec::len), stream.packets, "{codec:?}");

    let mut depacketizer = adapter::depacketizer(codec, max_don_diff);
    let receiving = thread::spawn(move || {
        let [keyframe, picture] = &frames;
        let (out, extra) = receive(&mut depacketizer, keyframe);
        assert_eq!((out, extra.is_keyframe()), (stream.keyframe, true));

        // What a stranger sends between two frames changes nothing.
        let (packet, why) = stream.refused;
        let (mut out, mut extra) = (vec![1, 2, 3], CodecExtra::None);
        let refused = depacketizer.depacketize(packet, &mut out, &mut extra);
        assert_eq!((refused, extra), (Err(why), CodecExtra::None));
        assert_eq!(out, [1, 2, 3]);

        let (out, extra) = receive(&mut depacketizer, picture);
        assert_eq!(out, stream.picture);
        assert_eq!(extra.is_keyframe(), codec == Codec::Opus);
    });
    receiving.join().expect("what was sent is received");
}

fn main() {
    let streams = streams();
    let count = streams.len();
    streams.into_iter().for_each(check);
    println!("{count} streams, received as they were sent");
}
