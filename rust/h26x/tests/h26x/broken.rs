//! Files that are broken, or none of those that are wanted: a sentence and a status each, and nothing
//! under the name of the output.

use crate::build::{Order, Rtp, THREE_UNITS, pcap_of, pcap_with, three_packets};
use crate::program::{Folder, Ran, small_streams};
use std::fs;
use std::os::unix::fs::symlink;

/// Receives what fails, and leaves no file.
#[track_caller]
fn fails(capture: &[u8], words: &[&str]) -> Ran {
    let folder = Folder::new();
    folder.write("in.pcap", capture);
    let ran = folder.run(&["receive", "in.pcap", "out.h264"]);
    ran.says(1, &[&["in.pcap"], words].concat());
    assert_eq!(folder.names(), ["in.pcap"], "{ran:#?}");
    assert_eq!(folder.run(&["inspect", "in.pcap"]).status, 1);
    ran
}

#[test]
fn no_captures() {
    fails(&[], &["the capture is empty"]);
    fails(&[0xd4, 0xc3, 0xb2, 0xa1], &["too short for a capture"]);
    fails(&[7; 100], &["this is no capture"]);
    fails(&[0, 0, 0, 1, 0x67].repeat(9), &["this is no capture"]);
    fails(
        &[0x1f, 0x8b, 8, 0, 3, 3, 3],
        &["compressed by gzip, and is damaged"],
    );
}

#[test]
fn link_types_that_are_not_read() {
    let capture = pcap_of(Order::Little, 0xa1b2_c3d4, 105, &[vec![0; 40]]);
    fails(&capture, &["link type 105", "Ethernet (1)"]);
}

#[test]
fn no_rtp() {
    fails(&pcap_with(&[]), &["there is no RTP stream", "0 frames"]);
    let frames = vec![vec![0xff; 60]; 5];
    fails(
        &pcap_of(Order::Little, 0xa1b2_c3d4, 1, &frames),
        &["there is no RTP stream", "5 frames"],
    );
}

#[test]
fn a_record_that_no_file_has() {
    let mut capture = pcap_with(&three_packets());
    capture[24 + 11] = 0x7f;
    fails(&capture, &["so the file is damaged"]);
}

/// What is before such a record is received, and the status says that it isn't all.
#[test]
fn a_record_in_the_middle_that_no_file_has() {
    let packets: Vec<Rtp> = (0..5)
        .map(|i| Rtp::new(i, 0, true, &[0x41, 0x9a, 1]))
        .collect();
    let mut capture = pcap_with(&packets);
    let third = 24 + 2 * (capture.len() - 24) / 5;
    capture[third + 8..third + 12].copy_from_slice(&0x7000_0000_u32.to_le_bytes());
    let folder = Folder::new();
    folder.write("in.pcap", &capture);
    let damaged = format!(
        "in.pcap: the record at byte {third} says that it has 1879048192 bytes, so the file is damaged"
    );
    folder
        .run(&["receive", "in.pcap", "out.h264"])
        .says(3, &["2 packets", &damaged]);
    assert_eq!(
        folder.read("out.h264"),
        [0, 0, 0, 1, 0x41, 0x9a, 1].repeat(2)
    );
    folder
        .run(&["inspect", "in.pcap"])
        .says(3, &["2 packets", &damaged]);
}

/// What is before the cut is received, and the status says that it isn't all.
#[test]
fn captures_that_are_cut_off() {
    let capture = pcap_with(&three_packets());
    for len in [capture.len() - 1, capture.len() - 50, capture.len() - 70] {
        let folder = Folder::new();
        folder.write("in.pcap", &capture[..len]);
        let ran = folder.run(&["receive", "in.pcap", "out.h264"]);
        ran.says(
            3,
            &[
                "in.pcap: the capture is cut off",
                "left out, for want of a packet",
            ],
        );
        assert_eq!(
            folder.read("out.h264"),
            [0, 0, 0, 1, 0x67, 0x42, 0xc0, 0x1f]
        );
        folder
            .run(&["inspect", "in.pcap"])
            .says(3, &["the capture is cut off"]);
    }
}

/// Also where no unit is left open.
#[test]
fn a_capture_that_is_cut_off_between_units() {
    let packets: Vec<Rtp> = (0..5)
        .map(|i| Rtp::new(i, 0, true, &[0x41, 0x9a, 1]))
        .collect();
    let capture = pcap_with(&packets);
    let folder = Folder::new();
    folder.write("in.pcap", &capture[..capture.len() - 1]);
    let cut = "its last record begins at byte";
    folder
        .run(&["receive", "in.pcap", "out.h264"])
        .says(3, &["4 packets", cut]);
    assert_eq!(
        folder.read("out.h264"),
        [0, 0, 0, 1, 0x41, 0x9a, 1].repeat(4)
    );
    folder.run(&["inspect", "in.pcap"]).says(3, &[cut]);
}

/// A stream of another codec, whatever the ending of the output says.
#[test]
fn another_codec() {
    for (codec, stream) in small_streams() {
        let folder = Folder::new();
        let input = format!("in.{codec}");
        folder.write(&input, &stream);
        folder.run(&["send", &input, "out.pcap"]).says(0, &[]);
        for other in ["h264", "h265", "h266"]
            .into_iter()
            .filter(|it| *it != codec)
        {
            let back = format!("back.{other}");
            let say_codec = format!("say --codec {codec}");
            folder
                .run(&["receive", "out.pcap", &back])
                .says(1, &["this stream is no H.26", &say_codec]);
            folder
                .run(&["inspect", "out.pcap", "--codec", other])
                .says(1, &["this stream is no H.26"]);
            folder
                .run(&["send", &input, "other.pcap", "--codec", other])
                .says(1, &["this stream is no H.26", &say_codec]);
            assert_eq!(folder.names(), [input.as_str(), "out.pcap"]);
        }
    }
}

/// Most packets are of types that a single NAL unit or non-interleaved mode doesn't have.
#[test]
fn most_packets_are_refused() {
    let packet = |i: u16| {
        Rtp::new(
            i,
            0,
            false,
            if i % 3 == 0 {
                &[0x41, 0x9a, 1]
            } else {
                &[0x3d, 0x85, 0, 1, 9]
            },
        )
    };
    let packets: Vec<Rtp> = (0..30).map(packet).collect();
    let folder = Folder::new();
    folder.write("in.pcap", &pcap_with(&packets));
    let ran = folder.run(&["receive", "in.pcap", "out.h264"]);
    ran.says(
        1,
        &["20 of 30 packets are refused as H.264", "an FU-B, type 29"],
    );
    assert_eq!(folder.names(), ["in.pcap"]);
}

/// Audio beside which there is no video.
#[test]
fn no_video() {
    let packets: Vec<Rtp> = (0..30)
        .map(|i| Rtp::new(i, 0, false, &[0xff, 0xd5, 0x55]))
        .collect();
    fails(&pcap_with(&packets), &["0 of the 30 packets"]);
    let folder = Folder::new();
    folder.write("in.pcap", &pcap_with(&packets));
    folder
        .run(&["inspect", "in.pcap"])
        .says(1, &["look as those of no codec here", "--codec"]);
}

#[test]
fn no_streams() {
    let folder = Folder::new();
    let mp4 = [
        &[0, 0, 0, 0x20][..],
        b"ftypisom",
        &[0, 0, 0, 1],
        &[0x65; 50],
    ]
    .concat();
    for (name, bytes, word) in [
        (
            "mp4.h264",
            &mp4[..],
            "this is an MP4 file; take the stream out",
        ),
        (
            "text.h265",
            b"this is no stream at all",
            "no start code at the front",
        ),
        ("empty.h266", b"", "no unit in it"),
        ("zeros.h264", &[0; 3_000_000], "no unit in it"),
        ("code.h264", &[0, 0, 1], "no unit in it"),
        ("aggregate.h264", &[0, 0, 1, 24, 0x10], "no unit in it"),
    ] {
        folder.write(name, bytes);
        folder
            .run(&["send", name, "out.pcap"])
            .says(1, &[name, word]);
        fs::remove_file(folder.path(name)).expect("it is there");
    }
    assert_eq!(folder.names(), [""; 0]);
}

#[test]
fn files_that_are_not_there() {
    let folder = Folder::new();
    folder
        .run(&["receive", "no.pcap", "out.h264"])
        .says(1, &["no.pcap: there is no such file"]);
    folder
        .run(&["send", "no.h264", "out.pcap"])
        .says(1, &["no.h264: there is no such file"]);
    folder.run(&["inspect", "."]).says(1, &["this is a folder"]);
    folder.write("in.pcap", &pcap_with(&three_packets()));
    folder
        .run(&["inspect", "in.pcap/x"])
        .says(1, &["a part of this path is no folder"]);
    folder
        .run(&["receive", "in.pcap", "no/out.h264"])
        .says(1, &["no/out.h264: its folder doesn't exist"]);
    folder
        .run(&["receive", "in.pcap", ".", "--codec", "h264"])
        .says(1, &["this is a folder"]);
    folder
        .run(&["receive", "in.pcap", "in.pcap", "--codec", "h264"])
        .says(2, &["in.pcap: .pcap can't be written"]);
    folder.write("in.h264", &pcap_with(&three_packets()));
    folder
        .run(&["receive", "in.h264", "in.h264", "--codec", "h264"])
        .says(1, &["this is the input too"]);
    folder
        .run(&["receive", "/dev/null", "out.h264"])
        .says(1, &["/dev/null: the capture is empty"]);
    assert_eq!(folder.names(), ["in.h264", "in.pcap"]);
}

/// A disk without room, as /dev/full plays it.
#[test]
fn no_room() {
    let folder = Folder::new();
    folder.write("in.pcap", &pcap_with(&three_packets()));
    folder.write("in.h264", &[0, 0, 1, 0x65, 0x88, 1]);
    folder
        .run(&["receive", "in.pcap", "/dev/full", "--codec", "h264"])
        .says(1, &["/dev/full: there is no room left"]);
    folder
        .run(&["send", "in.h264", "/dev/full"])
        .says(1, &["/dev/full: there is no room left"]);
    assert_eq!(folder.names(), ["in.h264", "in.pcap"]);
}

/// A folder where nothing can be made, whoever asks.
#[test]
fn no_permission() {
    let folder = Folder::new();
    folder.write("in.pcap", &pcap_with(&three_packets()));
    let ran = folder.run(&["receive", "in.pcap", "/proc/out.h264"]);
    assert_eq!((ran.status, ran.out.as_str()), (1, ""));
    assert!(ran.err.contains("h26x: /proc/out.h264: "), "{ran:#?}");
}

/// What a link names is written, and the link stays; also where that isn't there yet.
#[test]
fn a_link_as_output() {
    let folder = Folder::new();
    folder.write("in.pcap", &pcap_with(&three_packets()));
    folder.write("real.h264", b"before");
    for (link, real) in [("link.h264", "real.h264"), ("other.h264", "new.h264")] {
        symlink(real, folder.path(link)).expect("a link");
        folder.run(&["receive", "in.pcap", link]).says(0, &[]);
        assert!(folder.path(link).is_symlink());
        assert_eq!(folder.read(real), THREE_UNITS);
    }
}

/// Standard output is what the shell made it: what stands in a file stays, and what is written goes
/// behind it.
#[test]
fn standard_output() {
    let folder = Folder::new();
    folder.write("in.pcap", &pcap_with(&three_packets()));
    let receive = "\"$0\" receive in.pcap /dev/stdout --codec h264";
    folder.write("all", b"before");
    folder.shell(&format!("{receive} >>all")).says(0, &[]);
    let both = [b"before", &THREE_UNITS[..]].concat();
    assert_eq!(folder.read("all"), both);
    let twice = format!("{{ {receive}; {receive}; printf end; }} >twice");
    folder.shell(&twice).says(0, &[]);
    assert_eq!(
        folder.read("twice"),
        [&THREE_UNITS[..], &THREE_UNITS, b"end"].concat()
    );
    assert_eq!(folder.names(), ["all", "in.pcap", "twice"]);
}

/// What one left that was killed is in nobody's way: here it has the number of the one that comes.
#[test]
fn a_part_that_was_left() {
    let folder = Folder::new();
    folder.write("in.pcap", &pcap_with(&three_packets()));
    let receive = "exec \"$0\" receive in.pcap out.h264";
    let left = format!("printf left >.h26x.$$.part; {receive}");
    folder.shell(&left).says(0, &[]);
    assert_eq!(folder.read("out.h264"), THREE_UNITS);
    assert_eq!(folder.names().len(), 3, "{:?}", folder.names());
}

/// The longest name that there is, and one that is longer.
#[test]
fn long_names() {
    let folder = Folder::new();
    folder.write("in.pcap", &pcap_with(&three_packets()));
    let longest = format!("{}.h264", "o".repeat(250));
    folder.run(&["receive", "in.pcap", &longest]).says(0, &[]);
    assert_eq!(folder.read(&longest), THREE_UNITS);
    let longer = format!("o{longest}");
    folder
        .run(&["receive", "in.pcap", &longer])
        .says(1, &["its name is longer than names may be there"]);
    assert_eq!(folder.names(), ["in.pcap", &longest]);
}

/// Words that are no call of the program, and what it says of them.
const UNKNOWN: &[(&[&str], &str)] = &[
    (&[], "say what to do"),
    (&["frobnicate"], "there is no command frobnicate"),
    (
        &["send", "a.h264"],
        "give the files as in: h26x send IN.h264 OUT.pcap",
    ),
    (
        &["send", "a.mp4", "b.pcap"],
        "a.mp4: its ending tells no codec",
    ),
    (
        &["send", "--lengths", "units", "b.pcap"],
        "units: its ending tells no codec",
    ),
    (
        &["send", "a.h264", "b.pcap", "--mtu", "2"],
        "--mtu 2: give a number from 3",
    ),
    (
        &["send", "a.h265", "b.pcap", "--donl", "--mtu", "5"],
        "--mtu 5: give a number from 6",
    ),
    (
        &["send", "a.h264", "b.pcap", "--donl"],
        "packets of H.264 bear no numbers",
    ),
    (
        &["send", "a.h264", "b.pcap", "--fps", "0"],
        "--fps 0: give it as 25",
    ),
    (
        &["send", "a.h264", "b.pcap", "--window", "3"],
        "--window is no option of send; receive and inspect have it",
    ),
    (
        &["receive", "a.pcap", "b.h264", "--json"],
        "--json is no option of receive; inspect has it",
    ),
    (
        &["inspect", "a.pcap", "--frobnicate", "3"],
        "there is no option --frobnicate\n",
    ),
    (&["inspect", "-x", "a.pcap"], "there is no option -x\n"),
    (
        &["inspect", "a.pcap", "--nothing=3"],
        "there is no option --nothing\n",
    ),
    (&["--nothing=3"], "there is no option --nothing\n"),
    (&["-x", "inspect"], "there is no option -x\n"),
    (&["man", "--nothing"], "there is no option --nothing\n"),
    (
        &["completion", "zsh", "--json"],
        "--json is no option of completion; inspect has it",
    ),
    (
        &["--codec=h264", "inspect", "a.pcap"],
        "--codec stands behind the command: send, receive or inspect",
    ),
    (
        &["inspect", "a.pcap", "--color", "red"],
        "--color red: give auto, always or never",
    ),
    (&["completion", "csh"], "say which shell: bash, zsh or fish"),
    (
        &["receive", "--all", "a.pcap", "-"],
        "--all writes a file for each stream; name a folder",
    ),
    (
        &["receive", "a.pcap", "b.h265", "--donl=0"],
        "--donl has no value",
    ),
    (
        &["inspect", "a.pcap", "--port=1", "--port=2"],
        "--port is given twice",
    ),
    (
        &["receive", "a.pcap", "b.h264", "--port"],
        "--port lacks its value",
    ),
    (
        &["receive", "a.pcap", "b.h264", "--codec", "av1"],
        "--codec av1: give h264",
    ),
    (
        &["inspect", "a.pcap", "--payload-type", "128"],
        "--payload-type 128: give a number from 0 to 127",
    ),
    (
        &["send", "a.h264", "b.pcap", "--as-str0m", "--no-delimiters"],
        "--no-delimiters: --as-str0m has a rule of its own",
    ),
    (
        &["inspect", "a.pcap", "--payload-type", "64"],
        "--payload-type 64: 64 to 95 can't be told from RTCP",
    ),
    (
        &["send", "a.h264", "b.pcap", "--payload-type", "95"],
        "--payload-type 95: 64 to 95 can't be told from RTCP",
    ),
];

#[test]
fn words_that_are_unknown() {
    let folder = Folder::new();
    for (words, said) in UNKNOWN {
        folder.run(words).says(2, &[said, "h26x --help"]);
    }
    folder.run(&["--help"]).says(
        0,
        &[
            "h26x send IN.h264 OUT.pcap",
            "IN has its units behind lengths of four bytes",
            "Status: 0 all went well",
        ],
    );
    for command in ["receive", "man"] {
        folder
            .run(&[command, "--help"])
            .says(0, &["--run-limit BYTES"]);
    }
    folder
        .run(&["--version"])
        .says(0, &[concat!("h26x ", env!("CARGO_PKG_VERSION"))]);
}
