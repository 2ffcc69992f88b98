//! Streams whose units stand behind lengths of four bytes, the highest first (ISO/IEC 14496-15).

use crate::program::{Folder, cut, small_streams};

const SEND: [&str; 6] = ["send", "--lengths", "units", "lengths.pcap", "--seed", "1"];

fn behind_lengths(units: &[Vec<u8>]) -> Vec<u8> {
    let with_length = |unit: &Vec<u8>| [&(unit.len() as u32).to_be_bytes()[..], unit].concat();
    units.iter().flat_map(with_length).collect()
}

/// Of a stream that is sent to `out.pcap`: its units behind lengths are sent in the same packets, and
/// so are those that are received and written behind lengths.
#[track_caller]
pub fn check_lengths(folder: &Folder, codec: &str, sending: &[&str], receiving: &[&str]) {
    let packets = folder.read("out.pcap");
    let send = [&SEND[..], &["--codec", codec], sending].concat();
    let units = cut(&folder.read(&format!("in.{codec}")));
    folder.write("units", &behind_lengths(&units));
    folder.run(&send).says(0, &[]);
    let is_same = folder.read("lengths.pcap") == packets;
    assert!(is_same, "the same packets as of start codes");

    let receive = [
        "receive",
        "out.pcap",
        "units",
        "--codec",
        codec,
        "--lengths",
    ];
    folder.run(&[&receive[..], receiving].concat()).says(0, &[]);
    let units = cut(&folder.read(&format!("back.{codec}")));
    assert!(
        folder.read("units") == behind_lengths(&units),
        "the same units"
    );
    folder.run(&send).says(0, &[]);
    let is_same = folder.read("lengths.pcap") == packets;
    assert!(is_same, "the same packets as of all units");
}

/// Sends what fails, and leaves no file.
#[track_caller]
fn fails(words: &[&str], stream: &[u8], said: &[&str]) {
    let folder = Folder::new();
    folder.write("in", stream);
    let ran = folder.run(&[&["send", "in", "out.pcap"], words].concat());
    ran.says(1, &[&["in: "], said].concat());
    assert_eq!(folder.names(), ["in"], "{ran:#?}");
}

#[test]
fn streams_that_are_broken() {
    let good = [0, 0, 0, 3, 0x65, 0x88, 7];
    for (bad, said) in [
        (
            &[0, 0][..],
            "the stream is cut off: the length at byte 7 is not whole. Copy the file again",
        ),
        (
            &[0, 0, 0, 9, 0x41, 0x9a],
            "the stream is cut off: the length at byte 7 says that its unit has 9 bytes, of which 2 \
             are there. Copy the file again",
        ),
        (
            &[0, 0, 0, 0, 0x41],
            "the length at byte 7 is 0. Copy the file again",
        ),
        (
            &[0x10, 0, 0, 1, 0x41],
            "the length at byte 7 says that its unit has 268435457 bytes, more than the 268435456",
        ),
        (
            &[0, 0, 0, 5, 0x41, 0, 0, 1, 0x67],
            "the unit behind the length at byte 7 holds a start code, at byte 12",
        ),
    ] {
        let words = ["--lengths", "--codec", "h264"];
        fails(&words, &[&good[..], bad].concat(), &[said]);
    }
    fails(
        &["--lengths", "--codec", "h264"],
        &[],
        &["there is no unit in it"],
    );
    let boxes = [
        &[0, 0, 0, 0x18][..],
        b"ftypisom",
        &[1; 12],
        &[0, 0, 0, 0x60],
        b"moov",
    ];
    fails(
        &["--lengths", "--codec", "h265"],
        &[&boxes.concat()[..], &[1; 0x58]].concat(),
        &["this is an MP4 file", "ffmpeg", "leave --lengths out"],
    );
}

/// Streams in Annex B form, with start codes of four bytes and of three at the front.
#[test]
fn start_codes_where_lengths_should_be() {
    let said = [
        "the file begins with a start code, at byte 0",
        "leave --lengths out",
    ];
    for (codec, stream) in small_streams() {
        let words = ["--lengths", "--codec", codec];
        let first = stream.iter().position(|it| *it == 1).expect("a start code");
        let stream = [&[0, 0, 0][..], &stream[first..]].concat();
        fails(&words, &stream, &said);
        fails(&words, &stream[1..], &said);
        fails(&words, &stream[..9], &said);
    }
}

#[test]
fn lengths_where_start_codes_should_be() {
    let said = "its units stand behind lengths of four bytes; say --lengths";
    for (codec, stream) in small_streams() {
        let units = cut(&stream);
        let stream = behind_lengths(&units);
        fails(&["--codec", codec], &stream, &[said]);
        // Lengths that look as start codes do, also where the stream is cut off.
        let long: Vec<u8> = (0..400)
            .map(|i| units[0].get(i).map_or(7, |it| *it))
            .collect();
        let stream = [behind_lengths(&[long]), stream].concat();
        assert_eq!(stream[..3], [0, 0, 1]);
        fails(&["--codec", codec], &stream, &[said]);
        fails(&["--codec", codec], &stream[..stream.len() - 1], &[said]);
    }
    // One that is broken at its front.
    fails(
        &["--codec", "h264"],
        &[0, 0, 0, 9, 0x65, 0x88],
        &["no start code at the front", "or say --lengths"],
    );
}

#[test]
fn lengths_out_of_a_pipe() {
    let folder = Folder::new();
    folder.write(
        "in",
        &[0, 0, 0, 3, 0x65, 0x88, 1, 0, 0, 0, 3, 0x41, 0x9a, 2],
    );
    let send = "cat in | \"$0\" send /dev/stdin out.pcap --codec h264";
    folder.shell(send).says(1, &["or say --lengths"]);
    folder
        .shell(&format!("{send} --lengths"))
        .says(0, &["2 access units in 2 packets"]);
}
