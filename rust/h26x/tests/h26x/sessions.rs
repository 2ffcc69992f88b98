//! Sessions as they come in captures: retransmissions and redundant payloads that nobody describes, several streams of a
//! payload type, SSRCs that change, packets that are sent again before the first, and packets that are encrypted.

use crate::build::{ethernet, ipv6, pcap, udp};
use crate::program::{Folder, Ran};
use crate::session::{AGAIN, MEDIA, Packet, description, media, receives, units};

const OTHER: u32 = 0x0a0b_0c0d;

/// All packets but those of these places, and each of these again behind eight more.
fn with_losses(all: &[Packet], lost: &[usize]) -> Vec<Packet> {
    let mut came = Vec::new();
    for (at, packet) in all.iter().enumerate() {
        if !lost.contains(&at) {
            came.push(packet.clone());
        }
        let due = lost.iter().position(|it| it + 8 == at);
        came.extend(due.map(|number| all[at - 8].again(700 + number as u16)));
    }
    came
}

/// Every twentieth packet is lost.
fn lost() -> Vec<usize> {
    (0..20).map(|it| 5 + 20 * it).collect()
}

fn inspect(came: &[Packet], options: &[&str]) -> Ran {
    let folder = Folder::new();
    let frames: Vec<Vec<u8>> = came.iter().map(Packet::frame).collect();
    folder.write("in.pcap", &pcap(&frames));
    folder.run(&[&["inspect", "in.pcap", "--summary"], options].concat())
}

/// Nobody says which payload type is of retransmissions: so many look as such, and what they send again fits.
#[test]
fn retransmissions_that_nobody_describes() {
    let all = media(0..420);
    let came = with_losses(&all, &lost());
    let [received, inspected] = receives(&came, "", &[], &all);
    let said = [
        "guessed, by what its packets look like: --rtx 97=96; else",
        "20 packets: recovered by RTX",
        "420 packets of 2100 bytes, 420 access units",
    ];
    received.says(0, &said);
    inspected.says(0, &said);
    inspected.says(0, &["loss: 0.00 %"]);
}

/// Nobody says which payload type is redundant, and which of FEC: packets of all are numbered together.
#[test]
fn redundant_payloads_that_nobody_describes() {
    let mut came = Vec::new();
    for number in 0..64 {
        let packet = Packet::media(number);
        came.push(match number % 8 {
            6 => Packet {
                payload_type: 99,
                payload: vec![0x10, 0x60, 0, 3],
                ..packet
            }
            .alone_in_red(),
            7 => Packet {
                payload: Vec::new(),
                ..packet
            },
            // Some stand outside of it.
            2 => packet,
            _ => packet.alone_in_red(),
        });
    }
    let all = media((0..64).filter(|it| it % 8 < 6));
    let [received, inspected] = receives(&came, "", &[], &all);
    let said = [
        "guessed, by what its packets look like: --red 98; else",
        "8 packets: passed over, of other payload types",
        "8 packets: of padding alone",
    ];
    received.says(0, &said);
    inspected.says(0, &said);
    // One of FEC, and one of media.
    came.remove(14);
    came.remove(9);
    let wanted: Vec<Packet> = all
        .iter()
        .filter(|it| it.timestamp != 9 * 3000)
        .cloned()
        .collect();
    receives(&came, "", &[], &wanted)[0].says(3, &["lost: 2 packets: 1 before 4, 1 before 9\n"]);
}

/// Before the first packet come, by RTX: the one before it, one of long ago, one that is lost later, and a probe.
#[test]
fn retransmissions_before_the_first_packet() {
    let all = media(0..60);
    let group = description(&format!("a=ssrc-group:FID {MEDIA} {AGAIN}\r\n"));
    for sdp in [group, description("")] {
        let mut came = all[21..].to_vec();
        came.remove(9);
        let probe = Packet {
            payload: Vec::new(),
            ..all[0].again(703)
        };
        let early = [
            all[30].again(700),
            all[3].again(701),
            all[20].again(702),
            probe,
        ];
        came.splice(..0, early);
        // It is told that these are of the stream, where its SSRCs aren't.
        came.insert(20, all[25].again(704));
        let [received, inspected] = receives(&came, &sdp, &[], &all[20..]);
        let said = [
            "2 packets: recovered by RTX",
            "2 packets: passed over, sent again by RTX",
        ];
        received.says(0, &said);
        inspected.says(0, &["loss: 0.00 %"]);
    }
}

/// Of two streams of a payload type with the same timestamps and near numbers nothing tells which one is sent again, but
/// that packets which had come are sent again too.
#[test]
fn two_streams_that_nothing_names() {
    let other = |it: &Packet| Packet {
        ssrc: OTHER,
        sequence: it.sequence.wrapping_add(3),
        payload: vec![0x41, 0x9a, 9, 9, it.payload[3]],
        ..it.clone()
    };
    let all = media(0..60);
    let others: Vec<Packet> = all.iter().map(other).collect();
    let mut came: Vec<Packet> = Vec::new();
    for (at, (one, two)) in all.iter().zip(&others).enumerate() {
        came.extend((at != 9).then(|| one.clone()));
        came.extend((at != 6).then(|| two.clone()));
    }
    // The number of the one is what the other lacks too.
    assert_eq!(all[9].sequence, others[6].sequence);
    came.insert(40, all[9].again(700));
    let mut without = all.clone();
    without.remove(9);
    let mut without_other = others.clone();
    without_other.remove(6);
    let of = |ssrc: &'static str| ["--ssrc", ssrc];
    for (ssrc, wanted) in [("0x01020304", &without), ("0x0a0b0c0d", &without_other)] {
        receives(&came, &description(""), &of(ssrc), wanted)[0].says(3, &["lost: 1 packet"]);
    }
    came.insert(41, all[12].again(701));
    receives(&came, &description(""), &of("0x01020304"), &all)[0].says(0, &["recovered by RTX"]);
    receives(&came, &description(""), &of("0x0a0b0c0d"), &without_other)[0]
        .says(3, &["lost: 1 packet"]);
}

/// The sender changes both SSRCs and its numbers: two streams, each with what is sent again of it.
#[test]
fn ssrcs_that_change() {
    let all = media(0..840);
    let mut came = with_losses(&all[..420], &lost());
    let changed = |it: Packet| {
        let ssrc = if it.ssrc == MEDIA { OTHER } else { AGAIN + 1 };
        Packet { ssrc, ..it }
    };
    came.extend(with_losses(&all[420..], &lost()).into_iter().map(changed));
    for (ssrc, wanted) in [("0x01020304", &all[..420]), ("0x0a0b0c0d", &all[420..])] {
        for sdp in ["", &description("")] {
            let [received, _] = receives(&came, sdp, &["--ssrc", ssrc], wanted);
            received.says(0, &["20 packets: recovered by RTX"]);
            assert!(!received.err.contains("lost: "), "{received:#?}");
        }
    }
}

/// A redundant payload that is none is refused in its place: what it bore is missing.
#[test]
fn redundant_payloads_that_are_none() {
    let all = media(0..40);
    let mut came: Vec<Packet> = all.iter().map(Packet::redundant).collect();
    // A block of 1023 bytes.
    came[9].payload = vec![0x80 | 99, 0, 3, 0xff, 96, 1];
    let mut wanted = all.clone();
    wanted.remove(9);
    let [received, inspected] = receives(&came, &description(""), &[], &wanted);
    let said =
        "refused: 1 packet, the first is 3: its redundant payload is none: blocks pass the end";
    received.says(3, &[said]);
    inspected.says(3, &["40 packets", "loss: 0.00 %"]);
    assert!(!received.err.contains("lost: "), "{received:#?}");
}

/// Bytes of a generator stand for encrypted ones: nothing is undone, and nothing is written.
#[test]
fn encrypted_sessions() {
    let mut state = 1_u32;
    let mut random = |len: usize| -> Vec<u8> {
        let mut next = || {
            state = state.wrapping_mul(1_664_525).wrapping_add(1_013_904_223);
            (state >> 24) as u8
        };
        (0..len).map(|_| next()).collect()
    };
    for payload_type in [96, 98] {
        let mut came = with_losses(&media(0..420), &lost());
        for packet in &mut came {
            packet.payload = random(60);
            if packet.payload_type == 96 {
                packet.payload_type = payload_type;
            }
        }
        // RED is described beside the codec, which pads.
        came.extend((420..430).map(|it| Packet {
            payload: random(60),
            ..Packet::media(it)
        }));
        let folder = Folder::new();
        let frames: Vec<Vec<u8>> = came.iter().map(Packet::frame).collect();
        folder.write("in.pcap", &pcap(&frames));
        folder.write("in.sdp", description("").as_bytes());
        let words = ["receive", "--sdp", "in.sdp", "in.pcap", "out.h264"];
        let said = "look as random bytes, as encrypted ones do (SRTP, RFC 3711): have them decrypted first";
        folder.run(&words).says(1, &[said]);
        assert_eq!(folder.names(), ["in.pcap", "in.sdp"]);
        let ran = folder.run(&["inspect", "--sdp", "in.sdp", "in.pcap", "--summary"]);
        ran.says(1, &["odd: its payloads look as random bytes", said]);
        assert!(!ran.out.contains("RTX"), "{ran:#?}");
    }
}

/// In IPv6 behind two tags (IEEE 802.1Q), with RTCP on the same port (RFC 5761): 20 of 420 packets come by RTX.
#[test]
fn sessions_in_other_frames() {
    let all = media(0..420);
    let mut frames = Vec::new();
    let frame = |bytes: &[u8]| {
        let tags = [0x88, 0xa8, 0, 7, 0x81, 0, 0, 5];
        ethernet(&tags, 0x86dd, &ipv6(17, &udp(bytes)))
    };
    for (at, packet) in with_losses(&all, &lost()).iter().enumerate() {
        frames.push(frame(&packet.bytes()));
        if at % 30 == 0 {
            // A sender report, and a NACK.
            let report = [&[0x80, 200, 0, 6, 1, 2, 3, 4][..], &[7; 20]].concat();
            let nack = [0x81, 205, 0, 3, 9, 9, 9, 9, 1, 2, 3, 4, 0xff, 0xfa, 0, 0];
            frames.extend([frame(&report), frame(&nack)]);
        }
    }
    let folder = Folder::new();
    folder.write("in.pcap", &pcap(&frames));
    folder.write("in.sdp", description("").as_bytes());
    for options in [&["--sdp", "in.sdp"][..], &[]] {
        let words = [&["receive", "in.pcap", "out.h264"], options].concat();
        let said = ["20 packets: recovered by RTX", "to 2001:db8::2 port 5004"];
        folder.run(&words).says(0, &said);
        assert_eq!(folder.read("out.h264"), units(&all));
    }
}

/// What a description has beside the session of the stream is named.
#[test]
fn what_is_passed_over_of_a_description() {
    let lines = "a=rtpmap:100 VP8/90000\r\na=rtpmap:101 rtx/90000\r\na=fmtp:101 apt=100\r\n\
        m=audio 9 UDP/TLS/RTP/SAVPF 111\r\na=rtpmap:111 opus/48000/2\r\n";
    let all = media(0..40);
    let [received, inspected] = receives(&all, &description(lines), &[], &all);
    let said = "passed over of the session description: payload types 100 (VP8/90000), \
        101 (rtx/90000), 111 (opus/48000/2)\n";
    received.says(0, &[said]);
    inspected.says(0, &[said]);
    let plain = receives(&all, &description(""), &[], &all);
    assert!(!plain[0].err.contains("passed over of"), "{plain:#?}");
}

/// Packets of a payload type that nobody describes, numbered with those of the stream, are none that are lost.
#[test]
fn other_payload_types() {
    let mut came = media(0..60);
    for at in [7, 8, 20] {
        came[at].payload_type = 120;
        came[at].payload = vec![0xf0, 1, 2, 3];
    }
    inspect(&came, &[]).says(
        0,
        &[
            "3 packets: passed over, of other payload types",
            "loss: 0.00 %",
            "57 packets",
        ],
    );
    came.remove(30);
    came.remove(8);
    inspect(&came, &[]).says(3, &["lost: 2 packets: 1 before 3, 1 before 25"]);
}

/// Of several payload types of the codec that are described the sender took the second, with its retransmissions.
#[test]
fn the_payload_type_that_the_sender_took() {
    let sdp = "v=0\r\nm=video 9 UDP/TLS/RTP/SAVPF 102 103 96 97\r\na=rtpmap:102 H264/90000\r\n\
        a=rtpmap:103 rtx/90000\r\na=fmtp:103 apt=102\r\na=rtpmap:96 H264/90000\r\n\
        a=rtpmap:97 rtx/90000\r\na=fmtp:97 apt=96\r\n";
    let all = media(0..420);
    let [received, inspected] = receives(&with_losses(&all, &lost()), sdp, &[], &all);
    let said = [
        "20 packets: recovered by RTX",
        "passed over of the session description: payload types 102 (H264/90000), 103 (rtx/90000)",
    ];
    received.says(0, &said);
    inspected.says(0, &said);
}
