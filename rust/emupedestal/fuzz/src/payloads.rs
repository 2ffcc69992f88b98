//! Payloads, any whatever, through packetizers, and what they make through depacketizers and receivers.
//!
//! A byte of [`Settings`], whose further bits choose which packets get lost; the largest packet size in two bytes,
//! which stays as it is where that is under 4; the headroom in a byte; and then, for each call, a byte whose lowest
//! bit says that a unit is sent as it is, the limit in two bytes (65535 for none), and the payload.

use crate::ends::{Sending, Taking};
use crate::input::{Input, Settings};
use crate::plan::{Item, Plan};
use crate::text::{Kind, header_len, kind_of, text_of, told_after};
use emupedestal::{
    Codec, CodecExtra, H264Depacketizer, H264Packetizer, H265Depacketizer, H265Packetizer,
    H266Depacketizer, H266Packetizer, Packets, Received, SequencedDepacketizer,
};

pub fn run(data: &[u8]) {
    let mut input = Input::new(data);
    let settings = Settings::read(&mut input);
    match settings.codec {
        Codec::H264 => run_of::<H264Packetizer, H264Depacketizer>(settings, input),
        Codec::H265 => run_of::<H265Packetizer, H265Depacketizer>(settings, input),
        Codec::H266 => run_of::<H266Packetizer, H266Depacketizer>(settings, input),
    }
}

/// A packet that was sent, and of which item it is.
struct Sent {
    item: usize,
    packet: Vec<u8>,
}

/// Makes the packets of a unit or a payload, in a list and in a buffer, and what they carry by the plan.
fn make<P: Sending>(
    plan: &mut Plan,
    [listing, placing]: [&mut P; 2],
    packets: &mut Packets,
    input: &mut Input,
) -> (Vec<Vec<u8>>, Vec<Item>) {
    let is_unit = input.byte() & 1 != 0;
    let mtu = match input.word() {
        0xffff => usize::MAX,
        other => other.into(),
    };
    let bytes = input.bytes();
    let (list, planned) = if is_unit {
        placing.make_unit_into(mtu, bytes, packets).expect("memory");
        (listing.make_unit(mtu, bytes), plan.unit(mtu, bytes))
    } else {
        placing.make_into(mtu, bytes, packets).expect("memory");
        (listing.packetize(mtu, bytes), plan.payload(mtu, bytes))
    };
    let list = list.expect("memory");
    assert!(
        packets.iter().eq(list.iter()),
        "in a list and in a buffer they are the same"
    );
    let most = plan.limit(mtu).unwrap_or(0);
    assert!(
        list.iter()
            .all(|packet| !packet.is_empty() && packet.len() <= most)
    );
    assert_eq!(
        list.len(),
        planned.iter().map(|item| item.packets).sum::<usize>()
    );
    (list, planned)
}

fn run_of<P: Sending, D: Taking>(settings: Settings, mut input: Input) {
    let (max_size, headroom) = (input.word(), usize::from(input.byte()));
    let mut plan = Plan::new(P::CODEC, settings.donl);
    let (mut listing, mut placing) = (P::default(), P::default());
    for end in [&mut listing, &mut placing] {
        end.set_donl(settings.donl);
        if max_size >= 4 {
            end.set_max_size(max_size);
        }
    }
    if max_size >= 4 {
        plan.set_max_size(max_size);
    }
    let mut packets = Packets::with_headroom(headroom);
    let (mut items, mut sent, mut number) = (Vec::new(), Vec::new(), 0_u16);
    while !input.is_empty() {
        let (list, planned) = make(
            &mut plan,
            [&mut listing, &mut placing],
            &mut packets,
            &mut input,
        );
        check_buffer(&packets, headroom);
        let mut list = list.into_iter();
        for item in planned {
            let own: Vec<Vec<u8>> = list.by_ref().take(item.packets).collect();
            check_item::<D>(settings, &item, &own, &mut number);
            sent.extend(own.into_iter().map(|packet| Sent {
                item: items.len(),
                packet,
            }));
            items.push(item);
        }
    }
    if items.iter().all(|item| item.is_carried(P::CODEC)) {
        for seed in [
            usize::MAX,
            settings.more.into(),
            5 * usize::from(settings.more) + 1,
        ] {
            check_loss(settings, &items, &sent, seed);
        }
    }
}

/// Where packets stand in a buffer.
fn check_buffer(packets: &Packets, headroom: usize) {
    let mut end = 0;
    for (i, packet) in packets.iter().enumerate() {
        end += headroom + packet.len();
        assert_eq!(packets.ends()[i], end);
        assert_eq!(&packets.bytes()[end - packet.len()..end], packet);
        assert_eq!(packets.get(i), Some(packet));
    }
    assert_eq!(
        (packets.bytes().len(), packets.ends().len()),
        (end, packets.len())
    );
    assert_eq!(packets.get(packets.len()), None);
}

/// The packets of an item are read back as its units, in either form; each has the number that is due.
fn check_item<D: Taking>(settings: Settings, item: &Item, packets: &[Vec<u8>], number: &mut u16) {
    let due = *number;
    if settings.donl {
        *number = number.wrapping_add(item.units.len() as u16);
    }
    if !item.is_carried(D::CODEC) {
        return;
    }
    for avc in [false, true] {
        let mut end = D::with_settings(settings.donl, avc);
        let (mut text, mut told) = (Vec::new(), CodecExtra::None);
        for packet in packets {
            assert_eq!(end.depacketize(packet, &mut text, &mut told), Ok(()));
        }
        let units: Vec<&[u8]> = item.units.iter().map(Vec::as_slice).collect();
        assert_eq!(text, text_of(avc, &units), "what is sent is received");
        assert_eq!(told, told_after(D::CODEC, CodecExtra::None, &units));
        assert_eq!(end.run(), 0);
    }
    for (i, packet) in packets.iter().enumerate() {
        let (is_first, is_last) = (i == 0, i + 1 == packets.len());
        if packets.len() > 1 {
            let Kind::Fragment(marks) = kind_of(D::CODEC, packet) else {
                panic!("a fragment is expected");
            };
            assert_eq!((marks.starts, marks.ends), (is_first, is_last));
        }
        if settings.donl && is_first {
            let at = header_len(D::CODEC) + usize::from(packets.len() > 1);
            assert_eq!(packet[at..at + 2], due.to_be_bytes());
        }
    }
}

/// Packets of which one is lost, and some come twice: the units of each other item are written, and no more.
fn check_loss(settings: Settings, items: &[Item], sent: &[Sent], seed: usize) {
    let mut receiver = SequencedDepacketizer::new(settings.codec, usize::MAX);
    receiver.with_donl(settings.donl);
    receiver.set_avc(settings.avc);
    let lost = if seed == usize::MAX || sent.is_empty() {
        None
    } else {
        Some(seed % sent.len())
    };
    let (mut text, mut told) = (Vec::new(), CodecExtra::None);
    let mut expected = None;
    for (i, Sent { packet, .. }) in sent.iter().enumerate() {
        if Some(i) == lost {
            continue;
        }
        let sequence = (i as u16).wrapping_add(65535);
        let wanted = if expected.is_none_or(|it| it == i) {
            Received::InOrder
        } else {
            Received::Gap(1)
        };
        assert_eq!(
            receiver.receive(sequence, packet, &mut text, &mut told),
            Ok(wanted)
        );
        if i % 3 == seed % 3 {
            let again = receiver.receive(sequence, packet, &mut text, &mut told);
            assert_eq!(again, Ok(Received::Late(1)));
        }
        expected = Some(i + 1);
    }
    let of_lost = lost.map(|i| sent[i].item);
    let left = items
        .iter()
        .enumerate()
        .filter(|(i, _)| Some(*i) != of_lost);
    let units: Vec<&[u8]> = left
        .flat_map(|(_, item)| item.units.iter().map(Vec::as_slice))
        .collect();
    assert_eq!(
        text,
        text_of(settings.avc, &units),
        "nothing damaged is written"
    );
    assert_eq!(told, told_after(settings.codec, CodecExtra::None, &units));
}
