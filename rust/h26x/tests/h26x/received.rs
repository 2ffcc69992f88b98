//! What a receiver of access units tells, and what is written of packets as networks and senders bring them. The
//! expected values are those of RFC 3550, 5.1 and A.1, RFC 6184, 5.1 and 5.8, and of what is documented of each word.

use crate::build::{Rtp, pcap_with};
use crate::program::{Folder, Ran};
use serde_json::{Value, json};

/// A slice with its number, in a packet of its own; a picture.
fn slice(sequence: u16) -> Rtp {
    let [high, low] = sequence.to_be_bytes();
    let payload = [0x41, 0x9a, high | 1, low | 1];
    Rtp::new(sequence, u32::from(sequence) * 3000, true, &payload)
}

fn slices(sequences: impl IntoIterator<Item = u16>) -> Vec<Rtp> {
    sequences.into_iter().map(slice).collect()
}

/// The fragments of an IDR slice of so many (RFC 6184, 5.8), of one picture.
fn fragments(first: u16, count: u16, marker: impl Fn(u16) -> bool) -> Vec<Rtp> {
    let fragment = |i: u16| {
        let start = if i == 0 { 0x80 } else { 0 };
        let end = if i + 1 == count { 0x40 } else { 0 };
        let payload = [0x7c, 5 | start | end, 0x88, i as u8];
        Rtp::new(first + i, 77, marker(i), &payload)
    };
    (0..count).map(fragment).collect()
}

/// The unit of these fragments, behind a start code.
fn whole(count: u8) -> Vec<u8> {
    let data = (0..count).flat_map(|i| [0x88, i]);
    [0, 0, 0, 1, 0x65].into_iter().chain(data).collect()
}

/// Parameter sets in one packet that ends its access unit, and their text.
fn sets(sequence: u16) -> Rtp {
    let payload = [0x78, 0, 4, 0x67, 0x42, 0xc0, 0x1f, 0, 2, 0x68, 0xce];
    Rtp::new(sequence, 0, true, &payload)
}

const SETS: [u8; 14] = [0, 0, 0, 1, 0x67, 0x42, 0xc0, 0x1f, 0, 0, 0, 1, 0x68, 0xce];

/// The units of packets that hold one each.
fn units(packets: &[Rtp]) -> Vec<u8> {
    let unit = |it: &Rtp| [&[0, 0, 0, 1][..], &it.payload].concat();
    packets.iter().flat_map(unit).collect()
}

/// Receives packets; these bytes are written.
#[track_caller]
fn receives(packets: &[Rtp], options: &[&str], wanted: &[u8]) -> Ran {
    let folder = Folder::new();
    folder.write("in.pcap", &pcap_with(packets));
    let ran = folder.run(&[&["receive", "in.pcap", "out.h264"], options].concat());
    assert_eq!(folder.read("out.h264"), wanted, "{ran:#?}");
    ran
}

/// The objects of one kind that `inspect --json` prints of packets.
fn told(packets: &[Rtp], is: &str) -> Vec<Value> {
    let folder = Folder::new();
    folder.write("in.pcap", &pcap_with(packets));
    let ran = folder.run(&["inspect", "in.pcap", "--json", "--codec", "h264"]);
    let objects = ran
        .out
        .lines()
        .map(|line| serde_json::from_str(line).expect("an object"));
    objects.filter(|it: &Value| it["is"] == is).collect()
}

/// What is told of the access units of packets: the first and the last number, how many are missing, and
/// whether it goes on with another, is whole, and clean.
fn access_units(packets: &[Rtp]) -> Vec<Value> {
    let facts = ["first", "last", "missing", "continues", "whole", "clean"];
    let of = |it: Value| facts.iter().map(|name| it[name].clone()).collect();
    told(packets, "access unit").into_iter().map(of).collect()
}

/// A packet alone that is far ahead makes nothing late, also where the stream reaches its number.
#[test]
fn a_stray_far_ahead() {
    let mut came = slices(100..4_000);
    let mut stray = slice(3_700);
    stray.payload[1] = 0x55;
    came.insert(40, stray);
    let ran = receives(&came, &[], &units(&slices(100..4_000)));
    ran.says(
        3,
        &["1 packet: not taken, with a number far from all others"],
    );
    assert!(!ran.err.contains("lost"), "{ran:#?}");
}

/// What waits is written before, and a packet that is missing there is lost.
#[test]
fn a_sender_that_begins_anew_20_000_back() {
    let before = (30_000..30_040).filter(|it| *it != 30_030);
    let came = slices(before.chain(10_000..10_040));
    let ran = receives(&came, &[], &units(&came));
    let told_of = [
        "lost: 1 packet: 1 before 30031",
        "1 time: the sender began anew",
    ];
    ran.says(3, &told_of);
    assert!(!ran.err.contains("far from all others"), "{ran:#?}");
    let all = access_units(&came);
    assert_eq!(all.len(), 79);
    assert_eq!(all[29], json!([30_029, 30_029, 0, false, true, false]));
    assert_eq!(all[30], json!([30_031, 30_031, 1, false, false, false]));
    // Whether one came before its first isn't known.
    assert_eq!(all[39], json!([10_000, 10_000, 0, false, false, false]));
    assert_eq!(all[40], json!([10_001, 10_001, 0, false, true, false]));
    assert_eq!(told(&came, "anew").len(), 1);
    // As few as wait from the beginning on are written too.
    let came = slices((30_000..30_003).chain(10_000..10_003));
    receives(&came, &[], &units(&came)).says(0, &["1 time: the sender began anew"]);
}

/// Packets without a payload are not missing: a unit in fragments around them is whole. So is one around an
/// empty packet, as some senders keep a path open with.
#[test]
fn packets_without_a_payload() {
    let mut came = vec![sets(6)];
    let [first, last] = <[Rtp; 2]>::try_from(fragments(7, 2, |i| i == 1))
        .ok()
        .expect("two");
    came.push(first);
    came.push(Rtp::new(8, 77, false, &[]));
    came.push(Rtp {
        sequence: 9,
        ..last
    });
    came.extend(slices([10]));
    let wanted = [&SETS[..], &whole(2), &units(&slices([10]))].concat();
    receives(&came, &[], &wanted).says(0, &["1 packet: of padding alone"]);
    let wanted = [
        json!([6, 6, 0, false, true, false]),
        json!([7, 9, 0, false, true, true]),
        json!([10, 10, 0, false, true, true]),
    ];
    assert_eq!(access_units(&came), wanted);
}

/// Of a picture of two slices each has the marker: the second goes on with the first, and isn't known to be whole, but it
/// is clean. From then on another timestamp ends an access unit; what ends the last one isn't known.
#[test]
fn a_marker_on_each_slice() {
    let mut came = vec![sets(6)];
    came.push(Rtp::new(7, 77, true, &[0x65, 0x88, 0]));
    came.extend([8, 9].map(|it| Rtp::new(it, 900, true, &[0x41, it as u8])));
    came.extend(slices([10]));
    let wanted = [&SETS[..], &whole(1), &units(&came[2..])].concat();
    receives(&came, &[], &wanted).says(0, &["5 access units"]);
    let wanted = [
        json!([6, 6, 0, false, true, false]),
        json!([7, 7, 0, false, true, true]),
        json!([8, 8, 0, false, true, true]),
        json!([9, 9, 0, true, false, true]),
        json!([10, 10, 0, false, false, false]),
    ];
    assert_eq!(access_units(&came), wanted);
}

/// A marker on a fragment behind which its unit goes on ends nothing.
#[test]
fn a_marker_on_each_fragment() {
    let mut came = vec![sets(6)];
    came.extend(fragments(7, 3, |_| true));
    came.extend(slices([10]));
    let wanted = [&SETS[..], &whole(3), &units(&slices([10]))].concat();
    receives(&came, &[], &wanted).says(0, &["3 access units, 1 keyframe"]);
    assert_eq!(access_units(&came)[1], json!([7, 9, 0, false, true, true]));
}

/// Of a unit of which a fragment is missing nothing is written, so that an access unit of it alone isn't given out, and
/// what follows isn't clean before the next keyframe with its parameter sets.
#[test]
fn a_loss_inside_a_fragmented_unit() {
    let mut came = vec![sets(6)];
    came.extend(fragments(7, 3, |i| i == 2));
    came.remove(2);
    came.extend(slices([10]));
    came.push(sets(11));
    came.extend(fragments(12, 2, |i| i == 1).into_iter().map(|it| Rtp {
        timestamp: 78,
        ..it
    }));
    came.extend(slices([14]));
    let wanted = [
        &SETS[..],
        &units(&slices([10])),
        &SETS,
        &whole(2),
        &units(&slices([14])),
    ]
    .concat();
    let told = [
        "lost: 1 packet: 1 before 9",
        "1 unit: left out, for want of a packet",
    ];
    receives(&came, &[], &wanted).says(3, &told);
    let wanted = [
        json!([6, 6, 0, false, true, false]),
        json!([10, 10, 1, false, true, false]),
        json!([11, 11, 0, false, true, false]),
        json!([12, 13, 0, false, true, true]),
        json!([14, 14, 0, false, true, true]),
    ];
    assert_eq!(access_units(&came), wanted);
    // So it isn't without them.
    came.remove(4);
    for it in &mut came[4..] {
        it.sequence -= 1;
    }
    let all = access_units(&came);
    assert_eq!(all[2], json!([11, 12, 0, false, true, false]));
}

/// Behind a gap another timestamp ends the access unit before, which isn't whole; its own is told by itself, and isn't
/// known to be whole without a delimiter.
#[test]
fn a_loss_between_access_units() {
    let mut came = vec![sets(6)];
    came.extend(fragments(7, 2, |_| false));
    came.push(Rtp {
        timestamp: 78,
        marker: false,
        ..sets(10)
    });
    came.extend(fragments(11, 2, |i| i == 1).into_iter().map(|it| Rtp {
        timestamp: 78,
        ..it
    }));
    let wanted = [&SETS[..], &whole(2), &SETS, &whole(2)].concat();
    for window in ["32", "0"] {
        let ran = receives(&came, &["--window", window], &wanted);
        ran.says(3, &["lost: 1 packet: 1 before 10", "3 access units"]);
    }
    let wanted = [
        json!([6, 6, 0, false, true, false]),
        json!([7, 8, 0, false, false, false]),
        json!([10, 12, 1, false, false, true]),
    ];
    assert_eq!(access_units(&came), wanted);
}

/// By nal_ref_idc (H.264, 7.4.1).
#[test]
fn a_picture_that_nothing_refers_to() {
    for (header, is_disposable) in [(0x01, true), (0x41, false)] {
        let packet = Rtp::new(7, 77, true, &[header, 0x9a, 1]);
        let unit = &told(&[packet], "access unit")[0];
        assert_eq!(unit["disposable"], is_disposable);
    }
}

/// Packets that come again a window later change nothing.
#[test]
fn duplicates_a_window_late() {
    let mut came = slices(100..200);
    came.extend(fragments(200, 3, |i| i == 2));
    came.extend(slices(203..300));
    let in_order = came.clone();
    for at in [150usize, 101, 40] {
        came.insert(at + 40, in_order[at].clone());
        came.insert(at + 40, in_order[at - 9].clone());
    }
    let wanted = [units(&in_order[..100]), whole(3), units(&in_order[103..])].concat();
    receives(&came, &[], &wanted).says(0, &["6 packets: passed over, come twice"]);
    assert_eq!(access_units(&came), access_units(&in_order));
}

/// A packet is waited for so long as `--wait` says, by the times of the capture, whose frames are 1 ms apart. A
/// capture's time may go back.
#[test]
fn the_wait_ends() {
    let mut numbers: Vec<u16> = (100..120).filter(|it| *it != 110).collect();
    numbers.insert(15, 110);
    // 111 came 5 ms before it, and 115 is the last between them.
    for (wait, is_taken) in [("4", false), ("5", true)] {
        let wanted = slices((100..120).filter(|it| is_taken || *it != 110));
        let came = slices(numbers.iter().copied());
        let ran = receives(&came, &["--wait", wait], &units(&wanted));
        ran.says(if is_taken { 0 } else { 3 }, &[]);
    }
    let folder = Folder::new();
    let mut capture = pcap_with(&slices(100..120));
    // The frame of 105 is from an hour before.
    let frame = (capture.len() - 24) / 20;
    let second = 24 + 5 * frame;
    capture[second..second + 4].copy_from_slice(&(1_700_000_000u32 - 3600).to_le_bytes());
    folder.write("in.pcap", &capture);
    folder
        .run(&["receive", "in.pcap", "out.h264", "--wait", "2"])
        .says(0, &[]);
    assert_eq!(folder.read("out.h264"), units(&slices(100..120)));
}

/// Where all packets have one timestamp and none the marker, a first slice of a picture begins an access unit.
#[test]
fn timestamps_that_are_equal() {
    let one = |it| Rtp {
        timestamp: 7,
        marker: false,
        ..it
    };
    let mut came: Vec<Rtp> = slices(65_500..=65_535)
        .into_iter()
        .chain(slices(0..40))
        .map(one)
        .collect();
    receives(&came, &[], &units(&came)).says(0, &["76 access units"]);
    assert_eq!(
        access_units(&came)[75],
        json!([39, 39, 0, false, false, false])
    );
    // Slices that begin no picture are one access unit.
    for it in &mut came {
        it.payload[1] = 0x40;
    }
    receives(&came, &[], &units(&came)).says(0, &["1 access unit"]);
    assert_eq!(
        access_units(&came),
        [json!([65_500, 39, 0, false, false, false])]
    );
}
