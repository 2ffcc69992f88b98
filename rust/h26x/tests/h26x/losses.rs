//! Packets that are lost, come twice or in another order, and numbers that jump.

use crate::build::{Rtp, pcap_with};
use crate::program::{Folder, Ran};

/// A single unit for each number: a slice with that number.
fn slice(sequence: u16) -> Rtp {
    let [high, low] = sequence.to_be_bytes();
    Rtp::new(
        sequence,
        u32::from(sequence) * 3000,
        true,
        &[0x41, 0x9a, high | 1, low | 1],
    )
}

fn slices(sequences: impl IntoIterator<Item = u16>) -> Vec<Rtp> {
    sequences.into_iter().map(slice).collect()
}

fn units(packets: &[Rtp]) -> Vec<u8> {
    packets
        .iter()
        .flat_map(|it| [&[0, 0, 0, 1][..], &it.payload].concat())
        .collect()
}

/// Receives packets; they come out as `wanted`.
#[track_caller]
fn receives(packets: &[Rtp], options: &[&str], wanted: &[Rtp]) -> Ran {
    let folder = Folder::new();
    folder.write("in.pcap", &pcap_with(packets));
    let ran = folder.run(&[&["receive", "in.pcap", "out.h264"], options].concat());
    assert_eq!(folder.read("out.h264"), units(wanted), "{ran:#?}");
    ran
}

#[test]
fn lost_packets_are_told() {
    let came: Vec<Rtp> = slices([10, 11, 13, 14, 17]);
    let ran = receives(&came, &[], &came);
    ran.says(
        3,
        &[
            "lost: 3 packets: 1 before 13, 2 before 17",
            "5 packets",
            "5 access units",
        ],
    );
    let numbers = (65_500..=65_535).chain(0..100).filter(|it| *it != 3);
    let came = slices(numbers);
    receives(&came, &[], &came).says(3, &["lost: 1 packet: 1 before 4"]);
}

/// A unit of which a fragment is missing is left out whole, whichever it is.
#[test]
fn no_damaged_unit_is_written() {
    let fragments = [0x85, 0x05, 0x45].map(|header| vec![0x7c, header, 1, 2]);
    for missing in 0..3u16 {
        let mut packets = slices([6]);
        packets.extend((0..3).map(|i| Rtp::new(7 + i, 21_000, i == 2, &fragments[usize::from(i)])));
        packets.extend(slices([10, 11]));
        packets.remove(1 + usize::from(missing));
        let ran = receives(&packets, &[], &slices([6, 10, 11]));
        ran.says(
            3,
            &["lost: 1 packet", "1 unit: left out, for want of a packet"],
        );
    }
}

#[test]
fn packets_in_another_order() {
    let wanted = slices(20..60);
    let mut came = wanted.clone();
    came.swap(0, 1);
    came.swap(10, 14);
    came[20..30].reverse();
    let ran = receives(&came, &["--begin-wait", "1"], &wanted);
    ran.says(0, &["packets: put before those that came earlier"]);
    // The first waits for none unless it is said for how long; the other comes 1 ms behind it.
    for options in [&[][..], &["--begin-wait", "0"]] {
        let ran = receives(&came, options, &wanted[1..]);
        ran.says(0, &["1 packet: not taken, come twice or too late"]);
    }
    // Without a window each packet behind a later one is late, and lost where it should stand.
    came = slices([20, 22, 21, 23]);
    let ran = receives(&came, &["--window", "0"], &slices([20, 22, 23]));
    ran.says(
        3,
        &[
            "lost: 1 packet: 1 before 22",
            "1 packet: not taken, come twice or too late",
        ],
    );
}

/// A packet is waited for until one comes that is more than the window ahead of it.
#[test]
fn the_window_ends() {
    for (behind, is_taken) in [(4u16, true), (5, false)] {
        let mut numbers: Vec<u16> = (100..120).filter(|it| *it != 110).collect();
        let at = numbers
            .iter()
            .position(|it| *it == 110 + behind)
            .expect("there");
        numbers.insert(at + 1, 110);
        let wanted = slices((100..120).filter(|it| is_taken || *it != 110));
        let ran = receives(&slices(numbers), &["--window", "4"], &wanted);
        ran.says(if is_taken { 0 } else { 3 }, &[]);
    }
}

#[test]
fn packets_that_come_twice() {
    let came = slices([1, 2, 2, 3, 1, 5, 5, 4, 6]);
    let ran = receives(&came, &[], &slices(1..=6));
    ran.says(0, &["come twice", "put before"]);
}

/// Two packets in a row from a number far away are a sender that begins anew (RFC 3550, A.1); one
/// alone is passed over.
#[test]
fn numbers_that_jump() {
    let wanted = slices((100..140).chain(30_000..30_040));
    receives(&wanted, &[], &wanted).says(0, &["the sender began anew"]);
    let back = slices((40_000..40_040).chain(10..50));
    receives(&back, &[], &back).says(0, &["the sender began anew"]);
    let mut stray = slices(100..140);
    stray.insert(20, slice(30_000));
    receives(&stray, &[], &slices(100..140)).says(3, &["1 packet: not taken, with a number far"]);
}

#[test]
fn each_stray_is_told() {
    let mut came = slices(100..140);
    came.insert(20, slice(30_000));
    came.insert(25, slice(20_000));
    let ran = receives(&came, &[], &slices(100..140));
    ran.says(
        3,
        &["2 packets: not taken, with a number far from all others"],
    );
}

/// Packets that come again much later, in their order, are late; a sender that begins anew not so far
/// behind is known by 64 in a row, of which the first 63 are late.
#[test]
fn numbers_that_go_back() {
    let again = slices((1_000..1_300).chain(1_050..1_113).chain(1_300..1_400));
    let ran = receives(&again, &[], &slices(1_000..1_400));
    ran.says(0, &["63 packets: passed over, come twice"]);
    let anew = slices((1_000..1_300).chain(400..500));
    let ran = receives(&anew, &[], &slices((1_000..1_300).chain(463..500)));
    ran.says(
        0,
        &["63 packets: not taken", "1 time: the sender began anew"],
    );
}

/// Where most packets come too late, the status says that some are missing.
#[test]
fn packets_in_reverse() {
    let reverse = slices((100..200).rev());
    let ran = receives(&reverse, &["--begin-wait", "1000"], &slices(167..200));
    ran.says(3, &["67 packets: not taken, come twice or too late"]);
}

/// A gap that is longer than the window is a gap still.
#[test]
fn a_long_gap() {
    let came = slices((100..110).chain(1_000..1_010));
    receives(&came, &[], &came).says(3, &["lost: 890 packets: 890 before 1000"]);
}

/// A unit with more data before its last fragment than the limit is left out.
#[test]
fn a_unit_over_the_limit() {
    let mut packets = slices([1]);
    for (i, header) in [(2, 0x85), (3, 0x05), (4, 0x45)] {
        packets.push(Rtp::new(
            i,
            9000,
            i == 4,
            &[&[0x7c, header][..], &[5; 10]].concat(),
        ));
    }
    packets.extend(slices([5]));
    let mut whole = slices([1]);
    whole.push(Rtp::new(0, 0, true, &[&[0x65][..], &[5; 30]].concat()));
    whole.extend(slices([5]));
    receives(&packets, &["--run-limit", "20"], &whole).says(0, &[]);
    let ran = receives(&packets, &["--run-limit", "19"], &slices([1, 5]));
    ran.says(3, &["1 unit: left out, longer than --run-limit"]);
}

/// Refused packets are told with what they lack, and change nothing.
#[test]
fn refused_packets() {
    let mut packets = slices(1..20);
    packets[4].payload = vec![0x78, 0, 9, 0x41];
    packets[9].payload = vec![0x1d, 0x80, 1];
    let wanted: Vec<Rtp> = slices((1..20).filter(|it| ![5, 10].contains(it)));
    receives(&packets, &[], &wanted).says(
        3,
        &[
            "refused: 1 packet, the first is 5: a STAP-A gives a NAL unit size of 9 bytes where 1 are left",
            "refused: 1 packet, the first is 10: an FU-B, type 29, is of the interleaved mode",
        ],
    );
}
