//! Session descriptions: those that `send` writes, and streams that are taken by one.

use crate::build::{Rtp, pcap_with};
use crate::program::{Folder, cut, small_streams};

/// What is described of the small streams: FFmpeg 5.1.9 and GStreamer 1.22.0 write the same sets and the same
/// profile-level-id of them. The level of H.265 is the byte 0x3c of its SPS, the one of H.266 the byte behind the
/// profile's in a made one.
const FORMATS: [(&str, &str); 3] = [
    (
        "h264",
        "profile-level-id=42c00a;sprop-parameter-sets=Z0LACtkJbARAAAADAEAAAAyDxImS,aMuBEsg=;packetization-mode=1",
    ),
    (
        "h265",
        "profile-space=0;profile-id=2;tier-flag=0;level-id=60;interop-constraints=900000000000;\
         profile-compatibility-indicator=20000000;\
         sprop-vps=QAEMAf//AiAAAAMAkAAAAwAAAwA8lZQJ;\
         sprop-sps=QgEBAiAAAAMAkAAAAwAAAwA8oBYgJE2WVlkkyvAWgIAAAAMAgAAADIQ=;sprop-pps=RAHBcrRiQA==",
    ),
    (
        "h266",
        "profile-id=1;tier-flag=0;interop-constraints=BA==;level-id=3;sprop-vps=AHEQAQIDBAUGBwgJCgsMDQ4PEBESExQ=;\
         sprop-sps=AHkNAQIDBAUGBwgJCgsMDQ4PEBESExQVFhcYGRobHB0eHyAhIiMkJSYnKCkqKywtLi8wMTIzNDU2Nzg5Ojs8;\
         sprop-pps=AIFCAQIDBAUGBwgJCgsM",
    ),
];

fn text(folder: &Folder, name: &str) -> String {
    String::from_utf8(folder.read(name)).expect("text")
}

#[test]
fn what_send_describes() {
    for ((codec, stream), (_, format)) in small_streams().into_iter().zip(FORMATS) {
        let folder = Folder::new();
        let input = format!("in.{codec}");
        folder.write(&input, &stream);
        let name = codec.to_uppercase();
        for (options, port, payload_type, rate) in [
            (&[][..], 5004, 96, "25"),
            (
                &[
                    "--port",
                    "6000",
                    "--payload-type",
                    "101",
                    "--fps",
                    "30000/1001",
                ],
                6000,
                101,
                "29.97",
            ),
        ] {
            let send = [
                "send", &input, "out.pcap", "--sdp", "out.sdp", "--ssrc", "7",
            ];
            folder.run(&[&send, options].concat()).says(0, &[]);
            let wanted = [
                "v=0",
                "o=- 7 0 IN IP4 10.0.0.1",
                "s=-",
                "c=IN IP4 10.0.0.2",
                "t=0 0",
                &format!("m=video {port} RTP/AVP {payload_type}"),
                &format!("a=rtpmap:{payload_type} {name}/90000"),
                &format!("a=fmtp:{payload_type} {format}"),
                &format!("a=framerate:{rate}"),
                "",
            ];
            assert_eq!(text(&folder, "out.sdp"), wanted.join("\r\n"));
            // It is enough to receive the stream.
            let receive = ["receive", "out.pcap", "back", "--sdp", "out.sdp"];
            folder.run(&receive).says(0, &[]);
            let same = ["receive", "out.pcap", "same", "--codec", codec];
            folder.run(&same).says(0, &[]);
            assert_eq!(folder.read("back"), folder.read("same"));
        }
        assert!(!folder.names().iter().any(|it| it.ends_with(".part")));
    }
}

#[test]
fn a_description_goes_where_it_is_sent() {
    let folder = Folder::new();
    let (_, stream) = &small_streams()[0];
    folder.write("in.h264", stream);
    let ran = folder.run(&["send", "in.h264", "out.pcap", "--sdp", "-"]);
    ran.says(0, &[]);
    assert!(ran.out.starts_with("v=0\r\n") && ran.out.contains(FORMATS[0].1));
    let ran = folder.run(&["send", "in.h264", "out.pcap", "--sdp", "out.pcap"]);
    ran.says(2, &["this is the capture too; name another file"]);
    let ran = folder.run(&["send", "in.h264", "other.pcap", "--sdp", "in.h264"]);
    ran.says(1, &["in.h264: this is the input too; name another file"]);
    assert_eq!(folder.names(), ["in.h264", "out.pcap"]);
}

/// A stream without sets before its first picture has no profile and no sets to be described; of sets the first is told
/// that comes, and those with it.
#[test]
fn what_is_described_of_other_streams() {
    let folder = Folder::new();
    let described = |units: &[&[u8]]| {
        let units = units.iter().flat_map(|unit| [&[0, 0, 1], *unit].concat());
        folder.write("in.h264", &units.collect::<Vec<u8>>());
        let send = ["send", "in.h264", "out.pcap", "--sdp", "out.sdp"];
        folder.run(&send).says(0, &[]);
        let text = text(&folder, "out.sdp");
        let format = text.lines().find_map(|it| it.strip_prefix("a=fmtp:96 "));
        format.expect("a format").to_string()
    };
    let (slice, first, second): (&[u8], &[u8], &[u8]) = (
        &[0x65, 0x88, 1],
        &[0x67, 0x64, 0x00, 0x28],
        &[0x67, 0x42, 0xc0, 0x1f],
    );
    let picture: &[u8] = &[0x68, 0xce];
    assert_eq!(described(&[slice]), "packetization-mode=1");
    let of_first =
        "profile-level-id=640028;sprop-parameter-sets=Z2QAKA==,aM4=;packetization-mode=1";
    assert_eq!(described(&[first, picture, slice, second, slice]), of_first);
    assert_eq!(
        described(&[slice, first, picture, first, slice, second]),
        of_first
    );
}

/// Packets bear numbers, which the description says, and who takes the stream by it is told.
#[test]
fn decoding_order_numbers() {
    for (codec, stream) in &small_streams()[1..] {
        let folder = Folder::new();
        let input = format!("in.{codec}");
        folder.write(&input, stream);
        let send = ["send", &input, "out.pcap", "--donl", "--sdp", "out.sdp"];
        folder.run(&send).says(0, &[]);
        let longest = cut(stream).iter().map(Vec::len).max().expect("units");
        let buffer = format!("sprop-depack-buf-bytes={}\r\n", 2 * longest);
        let text = text(&folder, "out.sdp");
        assert!(
            text.contains(";sprop-max-don-diff=1;") && text.contains(&buffer),
            "{text}"
        );
        assert_eq!(
            text.contains(";sprop-depack-buf-nalus=1;"),
            *codec == "h265"
        );
        let receive = ["receive", "out.pcap", "back", "--sdp", "out.sdp"];
        folder.run(&receive).says(0, &[]);
        let same = ["receive", "out.pcap", "same", "--codec", codec, "--donl"];
        folder.run(&same).says(0, &[]);
        assert_eq!(folder.read("back"), folder.read("same"));
        let inspect = ["inspect", "out.pcap", "--summary", "--sdp", "out.sdp"];
        folder.run(&inspect).says(0, &["2 keyframes"]);
    }
}

/// Two streams of one capture, of which a description names one.
#[test]
fn the_stream_that_is_described() {
    let folder = Folder::new();
    let packet = |sequence, payload_type: u8, payload: &[u8]| {
        let mut frame = crate::build::frame(&Rtp::new(sequence, 9000, true, payload));
        frame[14 + 20 + 8 + 1] = payload_type;
        frame[14 + 20 + 8 + 11] = payload_type;
        frame
    };
    let frames = (0..4).flat_map(|i| {
        [
            packet(i, 96, &[0x65, 0x88, 1]),
            packet(i, 97, &[0x61, 0x88, 2]),
        ]
    });
    folder.write("in.pcap", &crate::build::pcap(&frames.collect::<Vec<_>>()));
    let describe = |lines: &str| {
        let front = "v=0\r\no=- 0 0 IN IP4 192.0.2.1\r\ns=-\r\nt=0 0\r\n";
        folder.write("in.sdp", format!("{front}{lines}").as_bytes());
    };
    let written = |options: &[&str]| {
        let receive = ["receive", "in.pcap", "back.h264", "--sdp", "in.sdp"];
        folder.run(&[&receive, options].concat()).says(0, &[]);
        cut(&folder.read("back.h264"))[0].clone()
    };
    let audio = "m=audio 5006 RTP/AVP 111\r\na=rtpmap:111 opus/48000/2\r\n";
    let first = "a=rtpmap:96 H264/90000\r\na=fmtp:96 packetization-mode=1\r\n";
    let second = "a=rtpmap:97 h264/90000\n";
    describe(&format!(
        "{audio}m=video 5004 RTP/AVP 97 96\n{second}{first}"
    ));
    assert_eq!(written(&[]), [0x61, 0x88, 2]);
    assert_eq!(written(&["--payload-type", "96"]), [0x65, 0x88, 1]);
    // The one that is preferred stands first in the list (RFC 3264, 5.1), wherever its lines are.
    for (list, unit) in [("97 96", [0x61, 0x88, 2]), ("96 97", [0x65, 0x88, 1])] {
        for lines in [[first, second], [second, first]] {
            let lines = lines.concat();
            describe(&format!("m=video 5004 RTP/AVP {list}\n{lines}"));
            assert_eq!(written(&[]), unit);
        }
    }
    // A port that says nothing, and one that another replaces; with ICE none says anything.
    for port in ["0", "9", "41380"] {
        describe(&format!("m=video {port} UDP/TLS/RTP/SAVPF 97\r\n{second}"));
        assert_eq!(written(&[]), [0x61, 0x88, 2]);
    }
    describe(&format!("m=video 6000/2 RTP/AVP 97\r\n{second}"));
    assert_eq!(written(&["--port", "5004"]), [0x61, 0x88, 2]);
    let ran = folder.run(&["inspect", "in.pcap", "--sdp", "in.sdp"]);
    ran.says(1, &["none of its RTP streams is the one asked for"]);
    // The file's ending names another codec than the first of the description.
    describe(&format!(
        "m=video 5004 RTP/AVP 96 97\r\na=rtpmap:96 H265/90000\r\n{second}"
    ));
    assert_eq!(written(&[]), [0x61, 0x88, 2]);
}

/// A description that has an SPS and a PPS.
const WITH_SETS: &str = "m=video 5004 RTP/AVP 96\na=rtpmap:96 H264/90000\n\
    a=fmtp:96 sprop-parameter-sets=Z2QAKA==,aM4=;packetization-mode=1\n";
const SPS: &[u8] = &[0x67, 0x64, 0x00, 0x28];
const PPS: &[u8] = &[0x68, 0xce];
const SLICE: &[u8] = &[0x65, 0x88, 1];

/// What a receiver has of the stream, and of the description: sets are written of whose kind there is none before the
/// first picture.
#[test]
fn sets_that_the_stream_has_not() {
    let folder = Folder::new();
    folder.write("in.sdp", format!("v=0\n{WITH_SETS}").as_bytes());
    let (sps, pps, slice) = (SPS, PPS, SLICE);
    let (own, sei): (&[u8], &[u8]) = (&[0x67, 0x42, 0xc0, 0x1f], &[0x06, 5, 1, 0x80]);
    type Units<'a> = &'a [&'a [u8]];
    let cases: [(Units, Units, &str); 5] = [
        (
            &[slice, slice],
            &[sps, pps, slice, slice],
            "2 parameter sets of",
        ),
        (
            &[sei, slice, own],
            &[sps, pps, sei, slice, own],
            "2 parameter sets of",
        ),
        (&[own, slice], &[pps, own, slice], "1 parameter set of"),
        (&[own, pps, slice], &[own, pps, slice], "1 access unit"),
        // There is no picture.
        (&[sei], &[sps, pps, sei], "2 parameter sets of"),
    ];
    for (sent, wanted, said) in cases {
        let packets: Vec<Rtp> = (0..)
            .zip(sent)
            .map(|(i, unit)| Rtp::new(i, 9000, usize::from(i) + 1 == sent.len(), unit))
            .collect();
        folder.write("in.pcap", &pcap_with(&packets));
        for lengths in [false, true] {
            let receive = ["receive", "in.pcap", "back.h264", "--sdp", "in.sdp"];
            let options: &[&str] = if lengths { &["--lengths"] } else { &[] };
            folder.run(&[&receive, options].concat()).says(0, &[said]);
            let before = |unit: &[u8]| match lengths {
                true => (unit.len() as u32).to_be_bytes(),
                false => [0, 0, 0, 1],
            };
            let wanted = wanted
                .iter()
                .flat_map(|unit| [&before(unit)[..], unit].concat());
            assert_eq!(folder.read("back.h264"), wanted.collect::<Vec<u8>>());
        }
    }
}

/// A decoder that has both can begin with the first picture, and with one of them it can't.
#[test]
fn sets_with_which_a_decoder_begins() {
    let folder = Folder::new();
    for (sets, clean) in [("Z2QAKA==,aM4=", 1), ("Z2QAKA==", 0), ("aM4=", 0)] {
        let line = WITH_SETS.replace("Z2QAKA==,aM4=", sets);
        folder.write("one.sdp", format!("v=0\n{line}").as_bytes());
        folder.write("in.pcap", &pcap_with(&[Rtp::new(0, 0, true, SLICE)]));
        let ran = folder.run(&["inspect", "in.pcap", "--sdp", "one.sdp", "--json"]);
        let has_clean = ran.out.contains(&format!("\"clean\":{clean},"));
        assert!(has_clean, "{sets}: {ran:#?}");
    }
}

/// Through a pipe they go out with the first picture.
#[test]
fn sets_through_a_pipe() {
    let folder = Folder::new();
    folder.write("in.sdp", format!("v=0\n{WITH_SETS}").as_bytes());
    folder.write(
        "in.pcap",
        &pcap_with(&[Rtp::new(0, 0, true, SLICE), Rtp::new(1, 90, true, SLICE)]),
    );
    let ran = folder.shell("$0 receive --sdp in.sdp - out.h264 <in.pcap");
    ran.says(0, &["2 parameter sets of"]);
    assert_eq!(cut(&folder.read("out.h264")), [SPS, PPS, SLICE, SLICE]);
}

/// What is refused, and what is said of it.
#[test]
fn descriptions_that_are_refused() {
    let folder = Folder::new();
    folder.write(
        "in.pcap",
        &pcap_with(&[Rtp::new(0, 0, true, &[0x65, 0x88])]),
    );
    let video = "m=video 5004 RTP/AVP 96\r\na=rtpmap:96 ";
    let rows = [
        ("", "this describes no stream of H.264, H.265 or H.266"),
        (
            "\x7fELF\u{2}",
            "this describes no stream of H.264, H.265 or H.266",
        ),
        (
            "m=video 5004 RTP/AVP 96\r\na=rtpmap:96 VP8/90000",
            "this describes no stream",
        ),
        (
            &format!("{video}H265/90000"),
            "it has H.265 as payload type 96",
        ),
        (
            &format!("{video}H264/90000\r\na=fmtp:96 max-fs=1;packetization-mode=3"),
            "in.sdp: a=fmtp:96: parameter 1 is refused: its value is out of its range",
        ),
        (
            &format!("{video}H264/90000\r\na=fmtp:96 packetization-mode=2"),
            "packetization-mode 2, interleaved units, is not read",
        ),
        (
            &format!("{video}H264/90000\r\na=fmtp:96 sprop-parameter-sets=Z2QAKA==,aM"),
            "sprop-parameter-sets: unit 1 is no base64",
        ),
        // A slice, and a set with a start code in it.
        (
            &format!("{video}H264/90000\r\na=fmtp:96 sprop-parameter-sets=Z2QAKA==,ZYg="),
            "sprop-parameter-sets: unit 1 is of another type",
        ),
        (
            &format!("{video}H264/90000\r\na=fmtp:96 sprop-parameter-sets=Z2QAKAAAAWU="),
            "sprop-parameter-sets: unit 0 has a start code inside",
        ),
    ];
    for (text, said) in rows {
        folder.write("in.sdp", text.as_bytes());
        let receive = ["receive", "in.pcap", "out.h264", "--sdp", "in.sdp"];
        folder.run(&receive).says(1, &[said]);
    }
}

/// By `inspect`, by both ways to say a stream, and what can't be read.
#[test]
fn descriptions_that_inspect_refuses() {
    let folder = Folder::new();
    folder.write(
        "in.pcap",
        &pcap_with(&[Rtp::new(0, 0, true, &[0x65, 0x88])]),
    );
    let video = "m=video 5004 RTP/AVP 96\r\na=rtpmap:96 ";
    folder.write(
        "in.sdp",
        format!("{video}H265/90000\r\na=fmtp:96 tx-mode=MRST").as_bytes(),
    );
    let inspect = ["inspect", "in.pcap", "--sdp", "in.sdp"];
    folder
        .run(&inspect)
        .says(1, &["tx-mode: units in several streams are not read"]);
    let inspect = ["inspect", "in.pcap", "--sdp", "none.sdp"];
    folder
        .run(&inspect)
        .says(1, &["none.sdp: there is no such file"]);
    folder.write("in.sdp", &vec![b'a'; (1 << 20) + 1]);
    let inspect = ["inspect", "in.pcap", "--sdp", "in.sdp"];
    folder
        .run(&inspect)
        .says(1, &["longer than session descriptions are"]);
    let inspect = ["inspect", "in.pcap", "--all", "--sdp", "in.sdp"];
    folder.run(&inspect).says(2, &["leave one of them out"]);
    let ran = folder.shell("$0 inspect - --sdp - <in.pcap");
    ran.says(2, &["standard input is the capture"]);
    assert_eq!(folder.names(), ["in.pcap", "in.sdp"]);
}
