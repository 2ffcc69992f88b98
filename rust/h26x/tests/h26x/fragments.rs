//! Fragments of IP packets (RFC 791, 3.2; RFC 8200, 4.5).

use crate::build::{Order, Rtp, ipv4, ipv6, pcap_of, udp};
use crate::program::{Folder, Ran};

#[derive(Clone, Copy, Debug, PartialEq)]
enum Version {
    Four,
    Six,
}

const VERSIONS: [Version; 2] = [Version::Four, Version::Six];

/// A fragment of a packet of this number, of bytes `begin..end` of its datagram; its header comes before.
fn fragment(version: Version, id: u16, datagram: &[u8], begin: usize, end: usize) -> Vec<u8> {
    let has_more = end < datagram.len();
    part(version, id, begin, has_more, &datagram[begin..end])
}

fn part(version: Version, id: u16, begin: usize, has_more: bool, bytes: &[u8]) -> Vec<u8> {
    assert_eq!(begin % 8, 0);
    match version {
        Version::Four => {
            let place = (begin / 8) as u16 | u16::from(has_more) << 13;
            let mut packet = ipv4(&[], place, bytes);
            packet[4..6].copy_from_slice(&id.to_be_bytes());
            packet
        }
        Version::Six => {
            let place = begin as u16 | u16::from(has_more);
            let [high, low] = place.to_be_bytes();
            let [id_high, id_low] = id.to_be_bytes();
            let header = [17, 0, high, low, 0, 0, id_high, id_low];
            ipv6(44, &[&header, bytes].concat())
        }
    }
}

fn slice(number: u16) -> Rtp {
    let payload = [&[0x41, 0x9a, number as u8][..], &[number as u8; 97]].concat();
    Rtp::new(number, u32::from(number) * 90, true, &payload)
}

/// A datagram of 8 + 12 + 100 bytes.
fn datagram(number: u16) -> Vec<u8> {
    udp(&slice(number).bytes())
}

fn units(numbers: impl IntoIterator<Item = u16>) -> Vec<u8> {
    let unit = |number| [vec![0, 0, 0, 1], slice(number).payload].concat();
    numbers.into_iter().flat_map(unit).collect()
}

fn whole(version: Version, number: u16) -> Vec<u8> {
    match version {
        Version::Four => ipv4(&[], 0x4000, &datagram(number)),
        Version::Six => ipv6(17, &datagram(number)),
    }
}

/// Receives raw IP packets; the units of slices of these numbers are written.
#[track_caller]
fn receives(packets: &[Vec<u8>], wanted: &[u16], status: i32) -> Ran {
    let folder = Folder::new();
    folder.write(
        "in.pcap",
        &pcap_of(Order::Little, 0xa1b2_c3d4, 101, packets),
    );
    let ran = folder.run(&["receive", "in.pcap", "out.h264"]);
    ran.says(status, &[]);
    assert!(
        folder.read("out.h264") == units(wanted.iter().copied()),
        "{ran:#?}"
    );
    assert_eq!(folder.run(&["inspect", "in.pcap"]).status, status);
    ran
}

/// In each order, and some twice.
#[test]
fn in_each_order() {
    for version in VERSIONS {
        let places = [(0, 40), (40, 48), (48, 104), (104, 120)];
        let orders: [&[usize]; 5] = [
            &[0, 1, 2, 3],
            &[3, 2, 1, 0],
            &[2, 0, 3, 1],
            &[0, 0, 1, 2, 1, 2, 3],
            &[3, 3, 0, 2, 2, 1],
        ];
        let mut packets = vec![whole(version, 0)];
        for (number, order) in (1..).zip(orders) {
            let datagram = datagram(number);
            packets.extend(order.iter().map(|at| {
                let (begin, end) = places[*at];
                fragment(version, number, &datagram, begin, end)
            }));
        }
        packets.push(whole(version, 6));
        let ran = receives(&packets, &[0, 1, 2, 3, 4, 5, 6], 0);
        assert!(!ran.err.contains("passed over"), "{ran:#?}");
    }
}

/// Fragments of several packets among each other, of which one has the number of another sender's.
#[test]
fn among_each_other() {
    for version in VERSIONS {
        let (one, two) = (datagram(1), datagram(2));
        let from_another = |mut packet: Vec<u8>| {
            let last = if version == Version::Four { 15 } else { 23 };
            packet[last] = 9;
            packet
        };
        let packets = [
            whole(version, 0),
            fragment(version, 5, &one, 0, 64),
            from_another(fragment(version, 5, &two, 64, 120)),
            fragment(version, 5, &one, 64, 120),
            from_another(fragment(version, 5, &two, 0, 64)),
            whole(version, 3),
        ];
        receives(&packets, &[0, 1, 2, 3], 0);
    }
}

/// One that never comes, or of which the capture has only a front: the packet is told.
#[test]
fn that_are_missing() {
    let told = "1 IP packet of which the capture doesn't have all fragments";
    for version in VERSIONS {
        let one = datagram(1);
        let mut packets = vec![
            whole(version, 0),
            fragment(version, 5, &one, 0, 40),
            fragment(version, 5, &one, 64, 120),
            whole(version, 2),
        ];
        receives(&packets, &[0, 2], 3).says(3, &[told, "lost: 1 packet: 1 before 2"]);
        packets.insert(2, fragment(version, 5, &one, 40, 64));
        receives(&packets, &[0, 1, 2], 0);
        packets[2].pop();
        receives(&packets, &[0, 2], 3).says(3, &[told]);
    }
}

/// A packet with fragments that overlap, end in two places or go on behind its end is given up, with what
/// comes of it afterwards (RFC 5722, 4).
#[test]
fn that_overlap() {
    let told = "1 IP packet whose fragments overlap (RFC 5722)";
    for version in VERSIONS {
        let one = datagram(1);
        let at = |begin, end| fragment(version, 5, &one, begin, end);
        let other = part(version, 5, 0, true, &[9; 40]);
        let rows: [Vec<Vec<u8>>; 6] = [
            vec![at(0, 40), at(32, 64), at(40, 64), at(64, 120)],
            vec![at(64, 120), at(0, 40), at(40, 72), at(40, 64)],
            // The same place and other bytes.
            vec![at(0, 40), other, at(40, 120)],
            // All within another.
            vec![at(0, 64), at(8, 16), at(64, 120)],
            vec![
                at(104, 120),
                part(version, 5, 120, true, &[0; 8]),
                at(0, 104),
            ],
            vec![at(0, 64), at(64, 120), at(64, 120), at(0, 64), at(0, 48)],
        ];
        for (row, fragments) in rows.into_iter().enumerate() {
            let mut packets = vec![whole(version, 0)];
            packets.extend(fragments);
            packets.push(whole(version, 2));
            if row == 5 {
                // It was whole before, and is again; what comes then is of another.
                let ran = receives(&packets, &[0, 1, 2], 3);
                ran.says(3, &["doesn't have all fragments", "come twice"]);
                continue;
            }
            receives(&packets, &[0, 2], 3).says(3, &[told]);
        }
    }
}

/// Two ends, and a packet longer than any is.
#[test]
fn with_ends_that_make_no_sense() {
    let told = "1 IP packet whose fragments overlap";
    for version in VERSIONS {
        let rows = [
            [
                part(version, 5, 64, false, &[1; 16]),
                part(version, 5, 80, false, &[1; 16]),
            ],
            [
                part(version, 5, 64, true, &[1; 16]),
                part(version, 5, 40, false, &[1; 8]),
            ],
            [
                part(version, 5, 0, true, &[1; 16]),
                part(version, 5, 0xfff8, false, &[1; 16]),
            ],
        ];
        for row in rows {
            let packets = [&[whole(version, 0)][..], &row, &[whole(version, 1)]].concat();
            receives(&packets, &[0, 1], 3).says(3, &[told]);
        }
        // One that is not the last, and of no whole units of eight bytes, is none.
        let packets = [
            whole(version, 0),
            part(version, 5, 0, true, &[1; 15]),
            whole(version, 1),
        ];
        receives(&packets, &[0, 1], 3).says(3, &["doesn't have all fragments"]);
    }
}

/// More packets than are put together at a time: the oldest is given up.
#[test]
fn of_more_packets_than_are_held() {
    for version in VERSIONS {
        for (count, is_held) in [(63, true), (64, false)] {
            let one = datagram(1);
            let mut packets = vec![whole(version, 0), fragment(version, 5, &one, 0, 64)];
            packets.extend((100..100 + count).map(|id| part(version, id, 8, true, &[1; 8])));
            packets.push(fragment(version, 5, &one, 64, 120));
            packets.push(whole(version, 2));
            let wanted: &[u16] = if is_held { &[0, 1, 2] } else { &[0, 2] };
            let given_up = if is_held { count } else { count + 2 };
            let told = format!("{given_up} IP packets of which");
            receives(&packets, wanted, 3).says(3, &[&told]);
        }
    }
}

/// What comes much later is of another packet with the same number: 15 seconds of IPv4 (RFC 791, 3.2),
/// and 60 of IPv6 (RFC 8200, 4.5).
#[test]
fn that_come_late() {
    for (version, seconds) in [(Version::Four, 15), (Version::Six, 60)] {
        for late in [0, 1] {
            let one = datagram(1);
            let packets = [
                whole(version, 0),
                fragment(version, 5, &one, 0, 64),
                fragment(version, 5, &one, 64, 120),
                whole(version, 2),
            ];
            let mut capture = pcap_of(Order::Little, 0xa1b2_c3d4, 101, &packets);
            let third = 24 + 16 + packets[0].len() + 16 + packets[1].len();
            let time = 1_700_000_000u32 + seconds + late;
            capture[third..third + 4].copy_from_slice(&time.to_le_bytes());
            // Behind the second by these seconds alone.
            capture[third + 4..third + 8].copy_from_slice(&1000u32.to_le_bytes());
            let folder = Folder::new();
            folder.write("in.pcap", &capture);
            let ran = folder.run(&["receive", "in.pcap", "out.h264"]);
            let wanted: &[u16] = if late == 0 { &[0, 1, 2] } else { &[0, 2] };
            assert!(
                folder.read("out.h264") == units(wanted.iter().copied()),
                "{ran:#?}"
            );
        }
    }
}

/// Destination options behind the header of a fragment are of what was cut (RFC 8200, 4.5).
#[test]
fn with_headers_behind() {
    let cut = [&[17, 0, 1, 4, 0, 0, 0, 0][..], &datagram(1)].concat();
    let fragment = |begin: usize, end: usize| {
        let mut packet = fragment(Version::Six, 5, &cut, begin, end);
        packet[40] = 60;
        packet
    };
    let packets = [
        whole(Version::Six, 0),
        fragment(64, 128),
        fragment(0, 64),
        whole(Version::Six, 2),
    ];
    receives(&packets, &[0, 1, 2], 0);
}

/// A packet of 65507 bytes of data in 1500 bytes each, as senders without a limit make it.
#[test]
fn of_the_longest_datagram() {
    let long = |number: u16| {
        let payload = [&[0x41, 0x9a][..], &vec![7; 65507 - 12 - 2]].concat();
        udp(&Rtp::new(number, 0, true, &payload).bytes())
    };
    let mut packets = Vec::new();
    for number in 0..3 {
        let datagram = long(number);
        for begin in (0..datagram.len()).step_by(1480) {
            let end = datagram.len().min(begin + 1480);
            packets.push(fragment(Version::Four, number, &datagram, begin, end));
        }
    }
    let folder = Folder::new();
    folder.write(
        "in.pcap",
        &pcap_of(Order::Little, 0xa1b2_c3d4, 101, &packets),
    );
    folder
        .run(&["receive", "in.pcap", "out.h264"])
        .says(0, &["3 packets of 196485 bytes"]);
}
