//! Odd captures of a stream that the program sent: each is read, or it is said why not.

use crate::build::{ethernet, ipv4, pcap, udp};
use crate::peers::packets_in;
use crate::program::{Folder, Ran, small_streams};

/// A sent stream: its packets, and the units that come of them.
struct Sent {
    folder: Folder,
    packets: Vec<Vec<u8>>,
    units: Vec<u8>,
}

impl Sent {
    fn new() -> Self {
        let folder = Folder::new();
        folder.write("in.h264", &small_streams()[0].1);
        let send = [
            "send",
            "in.h264",
            "sent.pcap",
            "--mtu",
            "100",
            "--sequence",
            "0",
        ];
        folder.run(&send).says(0, &[]);
        folder
            .run(&["receive", "sent.pcap", "sent.h264"])
            .says(0, &[]);
        Sent {
            packets: packets_in(&folder.read("sent.pcap")),
            units: folder.read("sent.h264"),
            folder,
        }
    }

    /// Receives frames; what is written.
    #[track_caller]
    fn receive(&self, frames: &[Vec<u8>], status: i32, words: &[&str]) -> (Ran, Vec<u8>) {
        self.folder.write("odd.pcap", &pcap(frames));
        let ran = self.folder.run(&["receive", "odd.pcap", "odd.h264"]);
        ran.says(status, words);
        assert_eq!(self.folder.run(&["inspect", "odd.pcap"]).status, status);
        (ran, self.folder.read("odd.h264"))
    }

    /// All comes back.
    #[track_caller]
    fn comes_back(&self, frames: &[Vec<u8>], words: &[&str]) {
        let (ran, units) = self.receive(frames, 0, words);
        assert!(units == self.units, "{ran:#?}");
    }

    /// Only whole units come back, and not all of them.
    #[track_caller]
    fn comes_in_part(&self, frames: &[Vec<u8>], status: i32, words: &[&str]) {
        let (ran, units) = self.receive(frames, status, words);
        assert!(
            !units.is_empty() && units.len() < self.units.len(),
            "{ran:#?}"
        );
        let known = crate::program::cut(&self.units);
        for unit in crate::program::cut(&units) {
            assert!(known.contains(&unit), "a unit that wasn't sent: {ran:#?}");
        }
    }
}

fn frame(packet: &[u8]) -> Vec<u8> {
    ethernet(&[], 0x0800, &ipv4(&[], 0, &udp(packet)))
}

fn frames<'a>(packets: impl IntoIterator<Item = &'a Vec<u8>>) -> Vec<Vec<u8>> {
    packets.into_iter().map(|it| frame(it)).collect()
}

/// Changes a copy of each packet, which is given with its place.
fn changed(packets: &[Vec<u8>], change: impl Fn(usize, &mut Vec<u8>)) -> Vec<Vec<u8>> {
    let mut packets = packets.to_vec();
    packets
        .iter_mut()
        .enumerate()
        .for_each(|(i, it)| change(i, it));
    packets
}

fn numbered(mut packet: Vec<u8>, number: usize) -> Vec<u8> {
    packet[2..4].copy_from_slice(&(number as u16).to_be_bytes());
    packet
}

/// Packets of padding alone, 255 bytes each, behind those that are picked.
fn with_padding(
    packets: &[Vec<u8>],
    count: usize,
    is_picked: impl Fn(usize, &[u8]) -> bool,
) -> Vec<Vec<u8>> {
    let mut out: Vec<Vec<u8>> = Vec::new();
    for (i, packet) in packets.iter().enumerate() {
        out.push(numbered(packet.clone(), out.len()));
        let count = if is_picked(i, packet) { count } else { 0 };
        for _ in 0..count {
            let mut padding = [&[0xa0, 96, 0, 0][..], &packet[4..12], &[0; 254], &[255]].concat();
            padding = numbered(padding, out.len());
            out.push(padding);
        }
    }
    out
}

#[test]
fn padding() {
    let sent = Sent::new();
    let between = with_padding(&sent.packets, 3, |_, packet| packet[1] & 0x80 != 0);
    sent.comes_back(&frames(&between), &["of padding alone"]);
    let within = with_padding(&sent.packets, 1, |i, _| i % 3 == 1);
    sent.comes_back(&frames(&within), &["of padding alone"]);
    let mostly = with_padding(&sent.packets, 9, |_, _| true);
    sent.comes_back(&frames(&mostly), &["of padding alone"]);
}

#[test]
fn headers() {
    let sent = Sent::new();
    let without_markers = changed(&sent.packets, |_, it| it[1] &= 0x7f);
    sent.comes_back(&frames(&without_markers), &[]);
    // Two sources, an extension and padding.
    let long = changed(&sent.packets, |_, it| {
        it[0] = 0x80 | 0x20 | 0x10 | 2;
        let more = b"aaaabbbb\xbe\xde\0\x02\x10\x01\x20\x02\0\0\0\0";
        it.splice(12..12, more.iter().copied());
        it.extend([0, 0, 0, 4]);
    });
    sent.comes_back(&frames(&long), &[]);
}

/// RTCP, STUN and DTLS on the same port.
#[test]
fn others_on_the_port() {
    let sent = Sent::new();
    let mut all = Vec::new();
    for (i, packet) in sent.packets.iter().enumerate() {
        all.push(frame(packet));
        if i % 5 == 0 {
            all.push(frame(&[&b"\x80\xc8\0\x06h265"[..], &[0; 20]].concat()));
            all.push(frame(
                &[&b"\0\x01\0\0\x21\x12\xa4\x42"[..], &[b'a'; 12]].concat(),
            ));
            all.push(frame(&[&b"\x16\xfe\xfd"[..], &[0; 30]].concat()));
        }
    }
    sent.comes_back(&all, &[]);
}

/// Captured on both sides of a router that changes addresses.
#[test]
fn to_two_places() {
    let sent = Sent::new();
    let both = |packet: &Vec<u8>| {
        let mut other = frame(packet);
        other[14 + 19] = 77;
        [frame(packet), other]
    };
    let all: Vec<Vec<u8>> = sent.packets.iter().flat_map(both).collect();
    sent.comes_back(&all, &["passing over SSRC", "to 192.0.2.77"]);
}

/// Two senders with one SSRC, each with numbers of its own: what can't be told apart is told.
#[test]
fn of_two_senders() {
    let sent = Sent::new();
    let both = |(i, packet): (usize, &Vec<u8>)| {
        let mut other = frame(&numbered(packet.clone(), i + 20_000));
        other[14 + 15] = 9;
        [frame(packet), other]
    };
    let all: Vec<Vec<u8>> = sent.packets.iter().enumerate().flat_map(both).collect();
    let told = "its packets come from 192.0.2.1 port 12345 and 192.0.2.9 port 12345 by turns: two \
        senders have one SSRC";
    sent.comes_in_part(&all, 3, &[told]);
    sent.folder
        .run(&["inspect", "odd.pcap", "--json"])
        .says(3, &["\"is\":\"two senders\"", told]);
    // One whose address changes on the way is one sender.
    let mut moved = frames(&sent.packets);
    let half = moved.len() / 2;
    moved[half..].iter_mut().for_each(|it| it[14 + 15] = 9);
    let (ran, _) = sent.receive(&moved, 0, &[]);
    assert!(!ran.err.contains("by turns"), "{ran:#?}");
}

/// The stream goes on under another payload type, or SSRC: the longer part is taken, and the other told.
#[test]
fn that_change_midway() {
    let sent = Sent::new();
    let at = sent.packets.len() * 2 / 3;
    let types = changed(&sent.packets, |i, it| {
        it[1] = (it[1] & 0x80) | (96 + u8::from(i > at))
    });
    let (_, units) = sent.receive(&frames(&types), 0, &["passing over", "payload type 97"]);
    assert!(sent.units.starts_with(&units));
    let sources = changed(&sent.packets, |i, it| it[11] ^= u8::from(i > at));
    let (_, units) = sent.receive(&frames(&sources), 0, &["passing over SSRC"]);
    assert!(sent.units.starts_with(&units));
}

/// Some packets have another payload type: the units that they are of are missing, and none is damaged.
#[test]
fn of_another_type_among_them() {
    let sent = Sent::new();
    let wrong = changed(&sent.packets, |i, it| {
        it[1] = (it[1] & 0x80) | (96 + u8::from(i % 10 == 5))
    });
    sent.comes_in_part(&frames(&wrong), 3, &["lost: ", "payload type 97"]);
}

/// The capture has 60 bytes of each frame, so 6 of a payload.
#[test]
fn that_are_cut() {
    let sent = Sent::new();
    let mut cut = frames(&sent.packets);
    cut.iter_mut().for_each(|it| it.truncate(60));
    sent.folder.write("odd.pcap", &pcap(&cut));
    sent.folder
        .run(&["receive", "odd.pcap", "odd.h264"])
        .says(1, &["the capture has only a front", "longer snap length"]);
}

/// The last packet first: most come too late.
#[test]
fn in_reverse() {
    let sent = Sent::new();
    let reverse: Vec<Vec<u8>> = sent.packets.iter().rev().cloned().collect();
    sent.comes_in_part(&frames(&reverse), 3, &["come twice or too late (--window)"]);
}

/// Each twice, all behind all again, and from another number on in the middle.
#[test]
fn with_numbers_that_jump() {
    let sent = Sent::new();
    let twice = frames(sent.packets.iter().flat_map(|it| [it, it]));
    sent.comes_back(&twice, &["come twice"]);
    // Fewer than the 64 behind which the sender began anew.
    let again = frames(sent.packets.iter().chain(&sent.packets[..63]));
    sent.comes_back(&again, &["63 packets: passed over, come twice"]);
    // From the 64th on, which is within a unit.
    let again = frames(sent.packets.iter().chain(&sent.packets));
    let said = [
        "63 packets: passed over, come twice",
        "1 time: the sender began anew",
    ];
    let (_, units) = sent.receive(&again, 3, &said);
    let known = crate::program::cut(&sent.units);
    let (front, rest) = units.split_at(sent.units.len());
    assert!(front == sent.units && !rest.is_empty());
    assert!(known.ends_with(&crate::program::cut(rest)));
    // A place where a unit begins.
    let at = sent
        .packets
        .iter()
        .position(|it| it[1] & 0x80 != 0)
        .expect("a marker");
    let jump = changed(&sent.packets, |i, it| {
        let number = if i > at { i + 5000 } else { i };
        *it = numbered(std::mem::take(it), number);
    });
    sent.comes_back(&frames(&jump), &["1 time: the sender began anew"]);
}
