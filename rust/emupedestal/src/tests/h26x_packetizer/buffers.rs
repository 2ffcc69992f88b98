//! The calls of a buffer of packets itself.

use crate::proved::h26x_codec::{AnyPacketizer, BufferMemory, Codec, PacketBuffer};
use crate::tests::list;

/// Appends packets, each a unit as it is.
fn append(buffer: &mut PacketBuffer, packets: &[Vec<u8>]) {
    let mut it = AnyPacketizer::new(Codec::H264, false);
    for packet in packets {
        it.packetize_unit_into(1200, packet, buffer)
            .expect("memory");
    }
}

/// A buffer has these packets, and they lie in it one behind the other, each behind zeros.
#[track_caller]
pub(in crate::tests) fn has(buffer: &PacketBuffer, packets: &[Vec<u8>]) {
    let (mut laid, mut ends) = (Vec::new(), Vec::new());
    for packet in packets {
        laid.resize(laid.len() + buffer.headroom(), 0);
        laid.extend_from_slice(packet);
        ends.push(laid.len());
    }
    assert_eq!(
        (buffer.bytes(), buffer.packet_ends()),
        (&laid[..], &ends[..])
    );
    assert_eq!(buffer.len(), packets.len());
    assert!((0..packets.len()).all(|place| buffer.packet(place) == packets[place]));
}

/// The packets that were appended, those that are kept, none when it is cleared, and what is appended then.
#[test]
fn packets_appended_and_kept() {
    for (headroom, appended, count, kept) in [
        (0, "65aa 68 41", 3, "65aa 68 41"),
        (0, "65aa 68 41", 4, "65aa 68 41"),
        (0, "65aa 68 41", 2, "65aa 68"),
        (0, "65aa 68 41", 0, ""),
        (12, "65aa 68 41", 3, "65aa 68 41"),
        (12, "65aa 68 41", 1, "65aa"),
        (12, "65aa 68 41", 0, ""),
    ] {
        let mut buffer = PacketBuffer::new(headroom);
        has(&buffer, &[]);
        append(&mut buffer, &list(appended));
        has(&buffer, &list(appended));
        buffer.truncate(count);
        has(&buffer, &list(kept));
        buffer.clear();
        has(&buffer, &[]);
        append(&mut buffer, &list(appended));
        has(&buffer, &list(appended));
    }
}

/// A buffer has memory for eight packets at first, and then for twice as many; for their bytes too. None of it goes.
#[test]
fn memory_by_doubling() {
    let mut buffer = PacketBuffer::new(1);
    assert_eq!(buffer.memory(), BufferMemory { bytes: 0, ends: 0 });
    let mut told = Vec::new();
    for _ in 0..17 {
        append(&mut buffer, &[vec![5; 9]]);
        let BufferMemory { bytes, ends } = buffer.memory();
        told.push((bytes, ends));
    }
    let want = [1, 2, 4, 4, 8, 8, 8, 8, 16, 16, 16, 16, 16, 16, 16, 16, 32];
    assert_eq!(told, want.map(|count| (10 * count, count.max(8))));
    buffer.clear();
    assert_eq!(
        buffer.memory(),
        BufferMemory {
            bytes: 320,
            ends: 32
        }
    );
}
