//! Packets that bear others: retransmissions (RTX, RFC 4588) and redundant payloads (RED, RFC 2198), undone by options
//! and by session descriptions. Bytes are by the figures of these RFCs.

use crate::build::pcap;
use crate::pictures::{data, sum};
use crate::program::{Folder, cut};
use crate::session::{AGAIN, MEDIA, Packet, description, media, receives};
use std::path::Path;

/// Of forty packets one is lost and comes by RTX, between later ones; another one comes by both; and then RTX tries the
/// path with padding. So it is however the streams are known to belong together.
#[test]
fn retransmissions() {
    let all = media(0..40);
    let mut came = all.clone();
    let lost = came.remove(9);
    came.insert(25, lost.again(700));
    came.insert(26, all[20].again(701));
    came.insert(
        27,
        Packet {
            payload: Vec::new(),
            ..lost.again(702)
        },
    );
    let group = description(&format!("a=ssrc-group:FID {MEDIA} {AGAIN}\r\n"));
    for (sdp, options) in [
        ("", &["--rtx", "97=96"][..]),
        (&group, &[]),
        (&description(""), &[]),
    ] {
        let [received, inspected] = receives(&came, sdp, options, &all);
        let said = [
            "1 packet: recovered by RTX (RFC 4588)",
            "1 packet: passed over, sent again by RTX though they had come, or too late",
            "40 packets of 200 bytes, 40 access units",
        ];
        received.says(0, &said);
        inspected.says(0, &said);
        let notes = "    3     0.025000       27000 M     5  single      slice 5\n      ! recovered by RTX\n";
        inspected.says(
            0,
            &[notes, "      ! 14 came again by RTX\n", "loss: 0.00 %"],
        );
    }
    // Without it the packet is lost.
    let mut without = all.clone();
    without.remove(9);
    receives(&came, "", &[], &without)[0].says(3, &["lost: 1 packet: 1 before 4"]);
}

/// A hundred packets that come late, each behind its retransmission, came twice, and their sender doesn't begin anew.
#[test]
fn packets_that_come_behind_their_retransmissions() {
    let all = media(0..400);
    let held_up = &all[100..200];
    let mut came = all[..100].to_vec();
    came.extend_from_slice(&all[200..300]);
    came.extend((0..).zip(held_up).map(|(at, it)| it.again(at)));
    came.extend_from_slice(&all[300..]);
    came.extend_from_slice(held_up);
    let [received, inspected] = receives(&came, "", &["--rtx", "97=96"], &all);
    let said = [
        "100 packets: recovered by RTX (RFC 4588)",
        "100 packets: passed over, come twice",
        "400 packets of 2000 bytes",
    ];
    received.says(0, &said);
    inspected.says(0, &said);
    assert!(!received.err.contains("began anew"), "{received:#?}");
    assert!(!received.err.contains("too late"), "{received:#?}");
}

/// What JSON says of it, and a page.
#[test]
fn retransmissions_in_json() {
    let mut came = media([0, 1, 3, 4, 5]);
    came.insert(4, Packet::media(2).again(700));
    came.push(Packet::media(4).again(701));
    let folder = Folder::new();
    folder.write(
        "in.pcap",
        &pcap(&came.iter().map(Packet::frame).collect::<Vec<_>>()),
    );
    let ran = folder.run(&["inspect", "in.pcap", "--rtx", "97=96", "--json"]);
    let objects = ran
        .out
        .lines()
        .map(|it| serde_json::from_str(it).expect("an object"));
    let objects: Vec<serde_json::Value> = objects.collect();
    let recovered = objects.iter().filter(|it| it["recovered"] == true);
    let recovered: Vec<&serde_json::Value> = recovered.map(|it| &it["sequence"]).collect();
    assert_eq!(recovered, [65_532]);
    let again: Vec<_> = objects.iter().filter(|it| it["is"] == "again").collect();
    assert_eq!((again.len(), &again[0]["sequence"]), (1, &65_534.into()));
    let totals = objects.last().expect("totals");
    for (name, wanted) in [
        ("recovered", 1),
        ("again", 1),
        ("lost", 0),
        ("moved", 0),
        ("fec", 0),
    ] {
        assert_eq!(totals[name], wanted, "{name}");
    }
    let page = ["inspect", "in.pcap", "--rtx", "97=96", "--html", "out.html"];
    folder.run(&page).says(0, &[]);
    let page = data(&String::from_utf8(folder.read("out.html")).expect("text"));
    let columns = &page["streams"][0]["columns"];
    assert_eq!(
        (sum(&columns["recovered"]), sum(&columns["reordered"])),
        (1, 0)
    );
}

/// A sender that tries the path by a hundred packets that came long ago, one behind another, doesn't begin anew.
#[test]
fn probes() {
    let mut came = media(0..800);
    came.extend(media(1..101).iter().map(|it| it.again(it.sequence)));
    came.extend(media(800..810));
    let [received, _] = receives(&came, "", &["--rtx", "97=96"], &media(0..810));
    received.says(0, &["100 packets: passed over, sent again by RTX"]);
    assert!(!received.err.contains("began anew"), "{received:#?}");
}

/// Two streams of one payload type: a packet is sent again in the one that its names say, though the other lacks that
/// number too; and where there is no name in neither, though one may be nearer.
#[test]
fn two_streams() {
    let other = |it: &Packet| Packet {
        ssrc: 0x0a0b_0c0d,
        ..it.clone()
    };
    let all = media(0..60);
    let mut came = Vec::new();
    for (number, packet) in all.iter().enumerate() {
        let named = |it: Packet, rid: &[u8]| match number {
            0 => it.with_element(10, rid),
            _ => it,
        };
        if number != 9 {
            came.push(named(packet.clone(), b"hi"));
            came.push(named(other(packet), b"lo"));
        }
    }
    came.insert(40, all[9].again(700).with_element(11, b"hi"));
    let names = description(
        "a=extmap:10 urn:ietf:params:rtp-hdrext:sdes:rtp-stream-id\r\n\
         a=extmap:11 urn:ietf:params:rtp-hdrext:sdes:repaired-rtp-stream-id\r\n",
    );
    let mut without = all.clone();
    without.remove(9);
    let of = |ssrc: &'static str| ["--ssrc", ssrc];
    receives(&came, &names, &of("0x01020304"), &all)[0].says(0, &["recovered by RTX"]);
    receives(&came, &names, &of("0x0a0b0c0d"), &without)[0].says(3, &["lost: 1 packet"]);
    // The same, said of the whole session.
    let (media, extensions) = names.split_once("a=extmap").expect("extensions");
    let session = format!("v=0\r\na=extmap{extensions}{}", &media["v=0\r\n".len()..]);
    receives(&came, &session, &of("0x01020304"), &all)[0].says(0, &["recovered by RTX"]);
    for ssrc in ["0x01020304", "0x0a0b0c0d"] {
        let [received, _] = receives(&came, &description(""), &of(ssrc), &without);
        received.says(3, &["lost: 1 packet", "0x05060708"]);
    }
}

/// Redundant payloads, FEC and padding are numbered together: exactly what is missing of these is lost.
#[test]
fn redundant_payloads() {
    let numbers = (0..64_u16).filter(|it| it % 8 < 6);
    let all = media(numbers);
    let mut came = Vec::new();
    for number in 0..64 {
        let packet = Packet::media(number);
        came.push(match number % 8 {
            // A header of FEC (RFC 5109, 7.3).
            6 => Packet {
                payload_type: 99,
                payload: vec![0x10, 0x60, 0, 3],
                ..packet
            }
            .redundant(),
            7 => Packet {
                payload: Vec::new(),
                ..packet
            },
            _ => packet.redundant(),
        });
    }
    let [received, inspected] = receives(&came, &description(""), &[], &all);
    received.says(
        0,
        &["8 packets: passed over, of forward error correction (FEC, RFC 5109)"],
    );
    inspected.says(
        0,
        &[
            "8 packets: of padding alone",
            "loss: 0.00 %",
            "payload type 96,",
        ],
    );
    receives(&came, "", &["--red", "98"], &all)[0].says(0, &["56 packets of 240 bytes"]);
    // Of three that are lost one had media.
    for lost in [7, 6, 1] {
        came.remove(lost);
    }
    let wanted: Vec<Packet> = all
        .iter()
        .filter(|it| it.timestamp != 3000)
        .cloned()
        .collect();
    receives(&came, &description(""), &[], &wanted)[0]
        .says(3, &["lost: 3 packets: 1 before 65532, 2 before 2\n"]);
}

/// A redundant payload is sent again as it is: RTX is undone first.
#[test]
fn redundant_payloads_again() {
    let all = media(0..40);
    let mut came: Vec<Packet> = all.iter().map(Packet::redundant).collect();
    let lost = came.remove(9);
    came.insert(20, lost.again(700));
    let options = ["--rtx", "97=98", "--red", "98"];
    receives(&came, "", &options, &all)[0].says(0, &["1 packet: recovered by RTX"]);
}

/// The fronts of captures of real sessions, beside what the senders' encoders made: of each picture its timestamp, and
/// type and length of each unit; what was lost came again.
#[test]
fn real_sessions() {
    let folder = Path::new(env!("CARGO_MANIFEST_DIR")).join("../emupedestal/tests/captures");
    for (name, options) in [
        ("chromium-h264-rtx-loss", "--rtx=109=108"),
        ("gst-h265-rtx-loss", "--rtx=96=97"),
    ] {
        let capture = folder.join(name).with_extension("pcap");
        let capture = capture.to_str().expect("a path");
        let folder_of_it = Folder::new();
        let ran = folder_of_it.run(&["receive", capture, "out", options]);
        let told = cut(&folder_of_it.read("out"));
        let told: Vec<String> = told.iter().map(|it| it.len().to_string()).collect();
        let frames = std::fs::read_to_string(folder.join(format!("{name}.frames.txt")));
        let frames = frames.expect("the frames");
        let units = frames
            .split_whitespace()
            .filter_map(|it| it.split_once(':'));
        let units: Vec<&str> = units.map(|it| it.1).collect();
        // The front may end within a picture.
        let last = frames.lines().last().expect("one").matches(':').count();
        assert!(told.len() + last >= units.len(), "{name}: {told:?}");
        assert_eq!(told, units[..told.len()], "{name}");
        assert!(ran.err.contains("recovered by RTX"), "{ran:#?}");
        assert!(!ran.err.contains("lost: "), "{ran:#?}");
    }
}

#[test]
fn what_cannot_be_read() {
    let folder = Folder::new();
    for value in ["97", "97=97", "97=128", "x=96"] {
        let said = format!("--rtx {value}: give it as 97=96");
        folder
            .run(&["receive", "in.pcap", "out.h264", "--rtx", value])
            .says(2, &[&said]);
    }
    folder
        .run(&["inspect", "in.pcap", "--red", "128"])
        .says(2, &["--red 128: give a number"]);
}
