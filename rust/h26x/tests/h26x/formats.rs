//! File formats: pcap in both byte orders and both units of time, and pcapng.

use crate::build::{Order, THREE_UNITS, frame, pcap_of, three_packets};
use crate::program::Folder;

fn frames() -> Vec<Vec<u8>> {
    three_packets().iter().map(frame).collect()
}

/// Receives a capture, also through a pipe, and looks at its times, in seconds.
#[track_caller]
fn is_read(capture: &[u8], times: [&str; 3]) {
    let folder = Folder::new();
    folder.write("in.cap", capture);
    folder.run(&["receive", "in.cap", "out.h264"]).says(0, &[]);
    assert_eq!(folder.read("out.h264"), THREE_UNITS);
    let inspected = folder.run(&["inspect", "in.cap"]);
    inspected.says(0, &[]);
    let lines = inspected.out.lines().skip(2);
    let seconds: Vec<&str> = lines
        .filter_map(|line| line.split_whitespace().nth(1))
        .collect();
    assert_eq!(seconds[..3], times);
    let piped = folder.shell("cat in.cap | \"$0\" inspect -");
    assert_eq!((piped.status, piped.out), (0, inspected.out));
    folder
        .shell("cat in.cap | \"$0\" receive - - --codec h264 >piped")
        .says(0, &[]);
    assert_eq!(folder.read("piped"), THREE_UNITS);
}

#[test]
fn pcap_in_each_byte_order_and_unit() {
    for order in [Order::Big, Order::Little] {
        is_read(
            &pcap_of(order, 0xa1b2_c3d4, 1, &frames()),
            ["0.000000", "0.001000", "0.002000"],
        );
        is_read(
            &pcap_of(order, 0xa1b2_3c4d, 1, &frames()),
            ["0.000000", "0.000001", "0.000002"],
        );
    }
}

/// The upper half of the link type tells of a frame check sequence.
#[test]
fn pcap_with_a_frame_check_sequence() {
    let frames: Vec<Vec<u8>> = frames()
        .into_iter()
        .map(|it| [it, vec![1, 2, 3, 4]].concat())
        .collect();
    let capture = pcap_of(Order::Little, 0xa1b2_c3d4, 1 | 1 << 26 | 2 << 28, &frames);
    is_read(&capture, ["0.000000", "0.001000", "0.002000"]);
}

/// A block of pcapng: type, length, body with padding, length.
fn block(order: Order, kind: u32, body: &[u8]) -> Vec<u8> {
    let padded = body.len().next_multiple_of(4);
    let len = order.word(12 + padded as u32);
    let mut block = [order.word(kind), len].concat();
    block.extend(body);
    block.resize(8 + padded, 0);
    block.extend(len);
    block
}

fn section(order: Order) -> Vec<u8> {
    let version = [order.half(1), order.half(0)].concat();
    let body = [&order.word(0x1a2b_3c4d)[..], &version, &[0xff; 8]].concat();
    block(order, 0x0a0d_0d0a, &body)
}

fn interface(order: Order, link: u16, options: &[u8]) -> Vec<u8> {
    let body = [&order.half(link)[..], &[0, 0], &order.word(0), options].concat();
    block(order, 1, &body)
}

/// An enhanced packet block with a comment behind its packet.
fn enhanced(order: Order, interface: u32, ticks: u64, frame: &[u8]) -> Vec<u8> {
    let len = frame.len() as u32;
    let mut body = Vec::new();
    for word in [interface, (ticks >> 32) as u32, ticks as u32, len, len] {
        body.extend(order.word(word));
    }
    body.extend(frame);
    body.resize(body.len().next_multiple_of(4), 0);
    body.extend([&order.half(1)[..], &order.half(2), b"hi", &[0, 0], &[0; 4]].concat());
    block(order, 6, &body)
}

#[test]
fn pcapng_in_each_byte_order() {
    for order in [Order::Big, Order::Little] {
        let mut file = [section(order), interface(order, 1, &[])].concat();
        for (i, frame) in (0..).zip(frames()) {
            file.extend(block(order, 0x0bad, b"a block of another kind"));
            file.extend(enhanced(
                order,
                0,
                1_700_000_000_000_000 + i * 500_000,
                &frame,
            ));
        }
        is_read(&file, ["0.000000", "0.500000", "1.000000"]);
    }
}

/// Two sections of different byte orders, whose interfaces count milliseconds and 1/1024 of seconds.
#[test]
fn pcapng_of_sections_with_clocks_of_their_own() {
    let frames = frames();
    let (big, little) = (Order::Big, Order::Little);
    // if_name, which is passed over, and if_tsresol: 10 to the -3.
    let names = [
        &big.half(2)[..],
        &big.half(3),
        b"abc\0",
        &big.half(9),
        &big.half(1),
        &[3, 0, 0, 0],
        &[0; 4],
    ]
    .concat();
    // if_tsresol: 2 to the -10, and if_tsoffset: a second more.
    let clock = [
        &little.half(9)[..],
        &little.half(1),
        &[0x8a, 0, 0, 0],
        &little.half(14),
        &little.half(8),
        &1u64.to_le_bytes(),
        &[0; 4],
    ]
    .concat();
    let file = [
        section(big),
        interface(big, 147, &[]),
        interface(big, 1, &names),
        enhanced(big, 0, 4_000, b"a frame of the other interface"),
        enhanced(big, 1, 5_000, &frames[0]),
        section(little),
        interface(little, 1, &clock),
        enhanced(little, 0, 4 * 1024 + 512, &frames[1]),
        enhanced(little, 0, 5 * 1024, &frames[2]),
    ]
    .concat();
    is_read(&file, ["0.000000", "0.500000", "1.000000"]);
}

/// Simple packet blocks have no times: all are 0.
#[test]
fn pcapng_of_simple_packets() {
    let order = Order::Little;
    let mut file = [section(order), interface(order, 1, &[])].concat();
    for frame in frames() {
        let len = order.word(frame.len() as u32);
        file.extend(block(order, 3, &[&len[..], &frame].concat()));
    }
    is_read(&file, ["0.000000"; 3]);
}

/// Packet blocks, as older programs write them: their interface is a number of two bytes, and another
/// of two bytes, how many packets were dropped, stands behind it.
#[test]
fn pcapng_of_older_packets() {
    for order in [Order::Big, Order::Little] {
        let mut file = [
            section(order),
            interface(order, 147, &[]),
            interface(order, 1, &[]),
        ]
        .concat();
        for (time, frame) in (7..).zip(frames()) {
            let len = order.word(frame.len() as u32);
            let numbers = [order.word(0), order.word(time), len, len].concat();
            let body = [&order.half(1)[..], &order.half(9), &numbers, &frame].concat();
            file.extend(block(order, 2, &body));
        }
        is_read(&file, ["0.000000", "0.000001", "0.000002"]);
    }
}

/// Frames of another interface that aren't read are told, since packets may be among them.
#[test]
fn pcapng_with_frames_that_are_not_read() {
    let order = Order::Little;
    let mut file = [
        section(order),
        interface(order, 1, &[]),
        interface(order, 105, &[]),
        enhanced(order, 1, 1, b"a frame"),
    ]
    .concat();
    for frame in frames() {
        file.extend(enhanced(order, 0, 1, &frame));
    }
    let folder = Folder::new();
    folder.write("in.pcapng", &file);
    let told = "passed over: frames of link type 105";
    folder
        .run(&["receive", "in.pcapng", "out.h264"])
        .says(0, &[told]);
    folder.run(&["inspect", "in.pcapng"]).says(0, &[told]);
}

/// Packets of an interface whose frames aren't read, and of none that is there.
#[test]
fn pcapng_without_frames_that_are_read() {
    let order = Order::Little;
    let file = [
        section(order),
        interface(order, 105, &[]),
        enhanced(order, 0, 1, b"a frame"),
        enhanced(order, 7, 1, &frames()[0]),
    ]
    .concat();
    let folder = Folder::new();
    folder.write("in.pcapng", &file);
    let ran = folder.run(&["inspect", "in.pcapng"]);
    ran.says(1, &["there is no RTP stream in it", "link type 105"]);
}

/// Blocks that are cut off, or shorter than they may be.
#[test]
fn pcapng_that_is_broken() {
    let order = Order::Little;
    let front = [section(order), interface(order, 1, &[])].concat();
    let packets: Vec<Vec<u8>> = (0..)
        .zip(frames())
        .map(|(i, it)| enhanced(order, 0, i, &it))
        .collect();
    let whole = [front, packets.concat()].concat();
    let cut = format!(
        "the capture is cut off: its last record begins at byte {}",
        whole.len() - packets[2].len()
    );
    let folder = Folder::new();
    for len in [whole.len() - 1, whole.len() - 40, whole.len() - 100] {
        folder.write("in.pcapng", &whole[..len]);
        folder
            .run(&["receive", "in.pcapng", "out.h264"])
            .says(3, &[&cut]);
    }
    for len in [0u32, 8, 13, 0x7fff_fffc] {
        let short = [&whole[..], &order.word(6), &order.word(len), &[0; 40]].concat();
        folder.write("in.pcapng", &short);
        let damaged = format!(
            "the record at byte {} says that it has {len} bytes, so the file is damaged",
            whole.len()
        );
        for words in [
            &["inspect", "in.pcapng"][..],
            &["receive", "in.pcapng", "out.h264"],
        ] {
            folder.run(words).says(3, &[&damaged]);
        }
        assert_eq!(folder.read("out.h264"), THREE_UNITS);
    }
}
