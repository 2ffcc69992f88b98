//! Both endpoints of any codec, and transmissions through them.

use crate::ends::{Answer, Receiver, SHORT, ask_depacketizer, ask_packetizer, send_nothing};
use crate::proved::h26x_codec::Codec;
use crate::proved::h26x_core::{CodecExtra, Depacketizer, H264CodecExtra, PacketError};
use crate::proved::h26x_transmission::{
    Carried, CodecDepacketizer, CodecPacketizer, again, carry, take_all,
};
use crate::proved::h264_payload::{H264Depacketizer, H264Packetizer};
use crate::proved::h265_payload::H265Depacketizer;
use crate::proved::h266_payload::H266Depacketizer;
use crate::refusing::{insist, insist_on, refused_at, some_refused, without_memory};
use crate::{h264, h265, h266};

/// Sends payloads of which nothing is sent, without numbers and then with them where there may be some, and asks about
/// a packet.
#[track_caller]
fn ask_to_send(mut it: CodecPacketizer, unsent: &[(usize, &[u8])], packet: &[u8]) {
    send_nothing(&mut it, unsent);
    without_memory(|| {
        it.configure_for(Some(1));
    });
    send_nothing(&mut it, unsent);
    ask_packetizer(&mut it, packet);
}

#[test]
fn sending_without_memory() {
    let new = |codec| without_memory(|| CodecPacketizer::new(codec));
    ask_to_send(new(Codec::H264), &h264::UNSENT, &[0x65]);
    ask_to_send(new(Codec::H265), &h265::UNSENT, &[2]);
    ask_to_send(new(Codec::H266), &h266::UNSENT, &[0]);
    let boxed = CodecPacketizer::Boxed(Box::new(H264Packetizer::new()));
    ask_to_send(boxed, &h264::UNSENT, &[0x65]);
}

/// Sends a unit as it is, each request refused before.
fn send_unit(it: &mut CodecPacketizer, mtu: usize, unit: &[u8]) -> Vec<Vec<u8>> {
    insist(it, |it| it.packetize_unit(mtu, unit), |_| true).expect("packets")
}

/// A unit alone and one in fragments, as they are, with numbers; and one without a whole header.
#[test]
fn units_as_they_are() {
    let mut it = CodecPacketizer::new(Codec::H265);
    it.configure_for(Some(1));
    some_refused(|| assert_eq!(send_unit(&mut it, 5, &[2, 1, 0xaa]), [[2, 1, 0, 0, 0xaa]]));
    let unit = [2, 1, 0xaa, 0xbb, 0xcc];
    let packets: [&[u8]; 2] = [&[0x62, 1, 0x81, 0, 1, 0xaa], &[0x62, 1, 0x41, 0xbb, 0xcc]];
    some_refused(|| assert_eq!(send_unit(&mut it, 6, &unit), packets));
    let none = without_memory(|| it.packetize_unit(1500, &[2]));
    assert_eq!(none.as_deref(), Ok(&[][..]));
}

/// Takes packets of which nothing is kept or written, and asks about another.
#[track_caller]
fn ask_to_receive(depacketizer: CodecDepacketizer, unwritten: &[(&[u8], Answer)], packet: &[u8]) {
    let mut it = Receiver::new(depacketizer);
    it.take_nothing(unwritten);
    without_memory(|| it.depacketizer.give_up_run());
    ask_depacketizer(&it.depacketizer, packet);
}

#[test]
fn receiving_without_memory() {
    let new = |codec| without_memory(|| CodecDepacketizer::new(codec));
    ask_to_receive(new(Codec::H264), &h264::UNWRITTEN, &[0x65, 1]);
    ask_to_receive(new(Codec::H265), &h265::REFUSED, &[2, 1]);
    ask_to_receive(new(Codec::H266), &h266::UNWRITTEN, &[0, 9]);
    let boxed = CodecDepacketizer::Boxed(Box::new(H264Depacketizer::new()));
    ask_to_receive(boxed, &h264::UNWRITTEN, &[0x65, 1]);
}

#[test]
fn receiving_of_numbers_without_memory() {
    let mut it = H265Depacketizer::new();
    it.with_donl(true);
    ask_to_receive(
        CodecDepacketizer::H265(it),
        &h265::REFUSED_NUMBERED,
        &[2, 1],
    );
    let mut it = H266Depacketizer::new();
    it.with_donl(true);
    ask_to_receive(
        CodecDepacketizer::H266(it),
        &h266::UNWRITTEN_NUMBERED,
        &[0, 9],
    );
}

/// A payload sent, written and sent again.
#[test]
fn payloads_sent_again() {
    let payloads = [vec![0, 0, 1, 0x65, 1, 2, 3, 4, 5, 6]];
    let packets: [&[u8]; 2] = [&[0x7c, 0x85, 1, 2, 3], &[0x7c, 0x45, 4, 5, 6]];
    some_refused(|| {
        let repeated = insist_on(|| again(Codec::H264, false, 1200, 5, &payloads));
        let repeated = repeated.expect("packets");
        assert_eq!(repeated.first.as_slice(), packets);
        assert_eq!(repeated.written, [0, 0, 0, 1, 0x65, 1, 2, 3, 4, 5, 6]);
        assert_eq!(repeated.second.as_slice(), packets);
    });
}

/// Two sets, and a unit behind them, each with its limit.
fn calls() -> Vec<(usize, Vec<u8>)> {
    vec![
        (1500, vec![7, 0, 1]),
        (1500, vec![8, 2, 3]),
        (1500, vec![5, 4, 5]),
    ]
}

/// The units of these payloads behind start codes.
const TEXT: [u8; 21] = [
    0, 0, 0, 1, 7, 0, 1, 0, 0, 0, 1, 8, 2, 3, 0, 0, 0, 1, 5, 4, 5,
];

/// Carries the payloads through fresh endpoints. What is written goes behind `out`.
fn carry_payloads(calls: &[(usize, Vec<u8>)], out: &mut Vec<u8>) -> Result<Carried, PacketError> {
    let mut p = CodecPacketizer::new(Codec::H264);
    let mut d = CodecDepacketizer::new(Codec::H264);
    carry(&mut p, &mut d, calls, out, &mut CodecExtra::None)
}

/// Whether what was written follows from which calls were made. A call that isn't made sends nothing, and leaves the
/// sets that wait. These go when both wait.
fn follows(made: Result<&[bool], &PacketError>, out: &[u8]) -> bool {
    match made {
        Ok([true, true, true]) => out == TEXT,
        Ok([false, true, true] | [true, false, true]) => out == &TEXT[14..],
        Ok([true, true, false]) => out.is_empty(),
        Err(PacketError::OutOfMemory) => out.is_empty() || out == &TEXT[..14],
        _ => false,
    }
}

#[test]
fn carried_as_far_as_memory_goes() {
    let calls = calls();
    let mut passed_over = 0;
    for request in 0.. {
        let mut out = Vec::new();
        let (carried, was_refused) = refused_at(request, true, || carry_payloads(&calls, &mut out));
        let made = carried.as_ref().map(|carried| carried.made.as_slice());
        assert!(follows(made, &out), "{made:?} {out:?}");
        if !was_refused {
            assert_eq!((made, out.as_slice()), (Ok(&[true; 3][..]), &TEXT[..]));
            assert!(passed_over > 0);
            return;
        }
        assert_ne!(made, Ok(&[true; 3][..]));
        passed_over += usize::from(made.is_ok());
    }
}

/// The first fragment of a unit, and its last.
const START: [u8; 3] = [0x7c, 0x85, 2];

const END: [u8; 3] = [0x7c, 0x45, 3];

/// What is written of them.
const UNIT: [u8; 7] = [0, 0, 0, 1, 0x65, 2, 3];

const KEY: CodecExtra = CodecExtra::H264(H264CodecExtra { is_keyframe: true });

const LACKS: Answer = Err(PacketError::OutOfMemory);

/// A middle fragment of a unit that nothing began, the fragments with a packet of no byte between, and one without its
/// header behind them.
fn packets() -> [Vec<u8>; 5] {
    [
        vec![0x7c, 0x05, 1],
        START.to_vec(),
        vec![],
        END.to_vec(),
        vec![0x7c],
    ]
}

/// What was written, by what became of the packets, and what the end brings once it is given again: the unit, where its
/// start was taken and its end wasn't.
fn written_of(outcomes: Result<&[Answer], &PacketError>) -> (&'static [u8], &'static [u8]) {
    match outcomes {
        Err(PacketError::OutOfMemory) => (&[], &[]),
        Ok([Ok(()), Ok(()), SHORT, Ok(()), SHORT]) => (&UNIT, &[]),
        Ok([Ok(()), LACKS, SHORT, Ok(()), SHORT]) => (&[], &[]),
        Ok([Ok(()), Ok(()), SHORT, LACKS, SHORT]) => (&[], &UNIT),
        _ => panic!("{outcomes:?}"),
    }
}

/// Without room for the outcomes nothing is taken; a packet for which memory lacks is passed over, and may be given
/// again, as the end is here.
#[test]
fn taken_as_far_as_memory_goes() {
    let packets = packets();
    for request in 0.. {
        let mut it = CodecDepacketizer::new(Codec::H264);
        let (mut out, mut extra) = (Vec::new(), CodecExtra::None);
        let (answer, was_refused) = refused_at(request, true, || {
            take_all(&mut it, &packets, &mut out, &mut extra)
        });
        let outcomes = answer.as_ref().map(|outcomes| outcomes.as_slice());
        let (written, ended) = written_of(outcomes);
        assert_eq!(
            (out.as_slice(), extra == KEY),
            (written, !written.is_empty())
        );
        out.clear();
        assert_eq!(it.depacketize(&END, &mut out, &mut extra), Ok(()));
        assert_eq!(out, ended);
        let is_whole = outcomes == Ok(&[Ok(()), Ok(()), SHORT, Ok(()), SHORT][..]);
        assert_eq!(is_whole, !was_refused);
        if !was_refused {
            assert!(request > 0);
            return;
        }
    }
}
