//! Captures with several streams: which of them is taken, and all of them.

use crate::build::{ethernet, ipv4, ipv6, pcap, udp};
use crate::peers::packets_in;
use crate::program::{Folder, cut, small_streams};
use crate::there_and_back::sent;

/// The frames of the small streams of each codec, one after the other in turn, with SSRCs 4, 5 and 6,
/// and of one packet after the other of audio, of which there are most.
fn frames(folder: &Folder) -> Vec<Vec<u8>> {
    let mut streams = Vec::new();
    for (ssrc, (codec, stream)) in ["4", "5", "6"].into_iter().zip(small_streams()) {
        let input = format!("in.{codec}");
        folder.write(&input, &stream);
        let send = ["send", &input, "sent.pcap", "--ssrc", ssrc, "--mtu", "300"];
        folder.run(&send).says(0, &[]);
        streams.push(packets_in(&folder.read("sent.pcap")));
    }
    let longest = streams.iter().map(Vec::len).max().unwrap_or(0) + 10;
    let audio = (0..longest).map(|i| {
        let mut packet = vec![0x80, 0];
        packet.extend((i as u16).to_be_bytes());
        packet.extend([0, 0, 0, 0, 0, 0, 0, 1, 0xff, 0xd5, 0x55]);
        packet
    });
    streams.push(audio.collect());
    let mut frames = Vec::new();
    for i in 0..longest {
        let of_each = streams.iter().filter_map(|it| it.get(i));
        frames.extend(of_each.map(|it| ethernet(&[], 0x0800, &ipv4(&[], 0, &udp(it)))));
    }
    frames
}

/// The ending of the file, or the codec that is named, says which stream is taken.
#[test]
fn streams_by_codec() {
    let folder = Folder::new();
    let frames = frames(&folder);
    folder.write("in.pcap", &pcap(&frames));
    for (ssrc, (codec, stream)) in (4..).zip(small_streams()) {
        let (back, ssrc) = (format!("back.{codec}"), format!("SSRC {ssrc:#010x}"));
        folder
            .run(&["receive", "in.pcap", &back])
            .says(0, &[&format!("receiving {ssrc}")]);
        assert_eq!(cut(&folder.read(&back)), sent(codec, &stream));
        folder
            .run(&["inspect", "in.pcap", "--summary", "--codec", codec])
            .says(0, &[&format!("stream: {ssrc}"), "passed over: "]);
        let piped = format!("cat in.pcap | \"$0\" receive - piped --codec {codec}");
        folder.shell(&piped).says(0, &[]);
        assert!(folder.read("piped") == folder.read(&back));
    }
    // Without a codec it is one of these, and not the audio, which has more packets.
    let ran = folder.run(&["inspect", "in.pcap", "--summary"]);
    ran.says(0, &["passed over: SSRC 0x00000001, payload type 0"]);
    folder
        .run(&["inspect", "in.pcap", "--ssrc", "1"])
        .says(1, &["look as those of no codec here"]);
}

/// Each stream gets a file, and those that are none of these codecs get none.
#[test]
fn all_streams() {
    let folder = Folder::new();
    let frames = frames(&folder);
    folder.write("in.pcap", &pcap(&frames));
    let name = |ssrc: u32, codec: &str| {
        format!("all/ssrc-{ssrc:#010x}-type-96-to-192.0.2.2-port-5004.{codec}")
    };
    for receive in [
        "\"$0\" receive --all in.pcap all",
        "cat in.pcap | \"$0\" receive --all - all",
    ] {
        let ran = folder.shell(&format!("rm -rf all; mkdir all; {receive}; ls all | wc -l"));
        ran.says(0, &["passing over SSRC 0x00000001, payload type 0"]);
        assert_eq!(ran.out.trim(), "3");
        for (ssrc, (codec, stream)) in (4..).zip(small_streams()) {
            let name = name(ssrc, codec);
            assert!(ran.err.contains(&format!("into {name}")), "{ran:#?}");
            assert_eq!(cut(&folder.read(&name)), sent(codec, &stream));
        }
    }
    folder
        .shell("rm -rf all; mkdir all; \"$0\" receive --all in.pcap all --codec h265; ls all")
        .says(0, &["0x00000005"]);
    let ran = folder.run(&["inspect", "--all", "--summary", "in.pcap"]);
    ran.says(0, &["as H.264", "as H.265", "as H.266"]);
    assert_eq!(ran.out.matches("stream: ").count(), 3);
    folder
        .run(&["receive", "--all", "in.pcap", "none"])
        .says(1, &["none: --all writes a file for each stream"]);
    folder
        .run(&["receive", "--all", "in.pcap", "all", "--port", "9"])
        .says(1, &["none of its RTP streams"]);
}

/// One of several that can't be written stops none of the others.
#[test]
fn one_of_all_fails() {
    let folder = Folder::new();
    let good = |i: u16| crate::build::Rtp::new(i, 0, true, &[0x41, 0x9a, 1]).bytes();
    let bad = |i: u16| {
        let payload: &[u8] = match i % 3 {
            0 => &[0x41, 0x9a, 1],
            _ => &[0x18, 0, 9, 1],
        };
        let mut bytes = crate::build::Rtp::new(i, 0, true, payload).bytes();
        bytes[11] = 9;
        bytes
    };
    let frame = |bytes: Vec<u8>| ethernet(&[], 0x86dd, &ipv6(17, &udp(&bytes)));
    let frames: Vec<Vec<u8>> = (0..30)
        .flat_map(|i| [frame(good(i)), frame(bad(i))])
        .collect();
    folder.write("in.pcap", &pcap(&frames));
    let ran = folder
        .shell("mkdir all; \"$0\" receive --all in.pcap all; status=$?; ls all; exit $status");
    ran.says(3, &["20 of 30 packets are refused"]);
    assert_eq!(
        ran.out.trim(),
        "ssrc-0x01020304-type-96-to-2001_db8__2-port-5004.h264"
    );
}
