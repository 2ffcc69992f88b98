//! A buffer for packets that come before earlier ones: one that is refused for memory leaves it, and can be given
//! again.

use crate::proved::h26x_reorder::{
    HeldPacket, NotHeldReason, Pushed, ReorderBuffer, RtpPacket, ordered,
};
use crate::refusing::{insist_on, insist_or_go_on, refused_at, some_refused, without_memory};

/// A packet of two bytes with this sequence number.
fn packet_of(sequence: u16) -> RtpPacket<'static> {
    RtpPacket {
        sequence,
        timestamp: 3000,
        marker: true,
        payload: &[0x61, 5],
    }
}

/// Gives a packet to a buffer, each request refused before, and compares the answer; a refusal leaves what the buffer
/// holds. A list in two parts may hold it in spite of one.
#[track_caller]
fn push(buffer: &mut ReorderBuffer, sequence: u16, want: Pushed) {
    let count = buffer.len();
    let packet = packet_of(sequence);
    let pushed = insist_or_go_on(buffer, |it| it.try_push(&packet), |it| it.len() == count);
    assert_eq!(pushed, Ok(want), "{sequence}");
}

/// Compares a packet that was given out with the one of a number.
#[track_caller]
fn compare(held: Option<HeldPacket>, want: Option<u16>) {
    let held = held.as_ref().map(|held| held.packet());
    assert_eq!(held, want.map(packet_of));
}

/// Packets that come out of order, twice and late, the numbers round 65535.
#[test]
fn packets() {
    let mut buffer = ReorderBuffer::new(3);
    some_refused(|| push(&mut buffer, 65535, Pushed::Held));
    compare(buffer.pop(), None);
    some_refused(|| push(&mut buffer, 1, Pushed::Held));
    push(&mut buffer, 1, Pushed::Twice);
    compare(buffer.pop(), Some(65535));
    compare(buffer.pop(), None);
    push(&mut buffer, 65535, Pushed::Late(1));
    push(&mut buffer, 0, Pushed::Held);
    compare(buffer.pop(), Some(0));
    compare(buffer.pop(), Some(1));
    compare(buffer.pop(), None);
    assert!(buffer.is_empty());
}

/// Packets that come one behind the other before a hundred others, for which the list is parted once they have paid for
/// it, more behind all of them, and one between those before.
#[test]
fn packets_in_two_parts() {
    let mut buffer = ReorderBuffer::new(1024);
    for numbers in [0..30, 31..60, 200..300, 60..160, 300..420, 30..31] {
        some_refused(|| {
            for number in numbers {
                push(&mut buffer, number, Pushed::Held);
            }
        });
    }
    for number in (0..160).chain(200..420) {
        compare(buffer.pop_first(), Some(number));
    }
    assert!(buffer.is_empty());
}

/// Packets behind a full back, while the front has room: where memory lacks for the back, both parts are joined in the
/// front, and the packet is held at once. It has no bytes, so that memory is asked for the back alone.
#[test]
fn packets_behind_a_full_back() {
    for request in 0.. {
        let mut buffer = ReorderBuffer::new(1024);
        for number in (0..40).chain(200..233).chain(40..81) {
            assert_eq!(buffer.try_push(&packet_of(number)), Ok(Pushed::Held));
        }
        let mut push_empty = |sequence| {
            let packet = RtpPacket {
                payload: &[],
                ..packet_of(sequence)
            };
            buffer.try_push(&packet)
        };
        let (pushed, was_refused) = refused_at(request, true, || {
            (233..260).all(|sequence| push_empty(sequence) == Ok(Pushed::Held))
        });
        assert!(pushed, "request {request}");
        for number in (0..81).chain(200..260) {
            let held = buffer.pop_first();
            assert_eq!(held.map(|held| held.sequence), Some(number));
        }
        assert!(buffer.is_empty());
        if !was_refused {
            assert!(request > 0);
            return;
        }
    }
}

/// Gives a packet to a buffer by value, its request 0, 1, .. refused before; one that isn't held comes back as it was
/// given, with the reason. The answer is its memory, where it isn't held.
#[track_caller]
fn push_held(
    buffer: &mut ReorderBuffer,
    mut packet: HeldPacket,
    want: Option<NotHeldReason>,
) -> Option<Vec<u8>> {
    let (count, sequence) = (buffer.len(), packet.sequence);
    let bytes = packet.packet().payload.to_vec();
    for n in 0.. {
        let (answer, was_refused) = refused_at(n / 2, n % 2 == 0, || buffer.push_held(packet));
        let Err(not_held) = answer else {
            assert_eq!((want, buffer.len()), (None, count + 1));
            return None;
        };
        assert_eq!(buffer.len(), count);
        assert_eq!(
            (not_held.packet.sequence, not_held.packet.packet().payload),
            (sequence, &bytes[..])
        );
        if !was_refused {
            assert_eq!(Some(not_held.reason), want);
            return Some(not_held.packet.into_payload());
        }
        assert_eq!(not_held.reason, NotHeldReason::OutOfMemory);
        packet = not_held.packet;
    }
    unreachable!()
}

/// Packets in memory of their own, which come out of order, twice and late: the bytes are those that were given, and
/// the memory comes back.
#[test]
fn packets_held_by_value() {
    let mut buffer = ReorderBuffer::new(3);
    let rows = [
        (65535, None),
        (1, None),
        (1, Some(NotHeldReason::Twice)),
        (0, None),
    ];
    some_refused(|| {
        for (sequence, want) in rows {
            let packet = HeldPacket::new(sequence, 3000, true, vec![0x61, 5]);
            if let Some(memory) = push_held(&mut buffer, packet, want) {
                assert_eq!(memory, [0x61, 5]);
            }
        }
    });
    compare(buffer.pop(), Some(65535));
    let late = HeldPacket::new(65534, 3000, true, Vec::new());
    let reason = Some(NotHeldReason::Late(2));
    assert_eq!(push_held(&mut buffer, late, reason), Some(Vec::new()));
    compare(buffer.pop(), Some(0));
    let memory = buffer.pop().map(|held| held.into_payload());
    assert_eq!(memory, Some(vec![0x61, 5]));
    assert!(buffer.is_empty());
}

/// A list in another order, with a loss and one that comes twice.
#[test]
fn a_list() {
    let packets = [9, 7, 8, 9, 11].map(packet_of);
    some_refused(|| {
        let out = insist_on(|| ordered(4, &packets)).expect("packets");
        let numbers: Vec<u16> = out.iter().map(|packet| packet.sequence).collect();
        assert_eq!(numbers, [7, 8, 9, 11]);
    });
}

/// What is made, popped or begun anew.
#[test]
fn buffers_without_memory() {
    without_memory(|| {
        let mut buffer = ReorderBuffer::new(3);
        assert!(buffer.is_empty() && buffer.pop().is_none() && buffer.pop_first().is_none());
        buffer.restart();
    });
}
