//! Captures and streams that come through pipes, and go into them.

use crate::build::{Rtp, THREE_UNITS, ethernet, ipv4, pcap, pcap_with, three_packets, udp};
use crate::program::{Folder, PROGRAM, small_streams};
use std::io::{BufRead, BufReader, Write};
use std::process::{Command, Stdio};

/// A slice for each of these numbers.
fn slices(numbers: impl IntoIterator<Item = u16>) -> Vec<Rtp> {
    let slice = |number: u16| {
        let payload = [0x41, 0x9a, 1, number as u8 | 1];
        Rtp::new(number, u32::from(number) * 3000, true, &payload)
    };
    numbers.into_iter().map(slice).collect()
}

/// All that the program does with a file it does with a pipe.
#[test]
fn captures_through_pipes() {
    for (codec, stream) in small_streams() {
        let folder = Folder::new();
        let input = format!("in.{codec}");
        folder.write(&input, &stream);
        let send = format!("cat {input} | \"$0\" send - - --codec {codec} --seed 7 >out.pcap");
        folder.shell(&send).says(0, &["-: "]);
        folder
            .run(&["send", &input, "same.pcap", "--seed", "7"])
            .says(0, &[]);
        assert!(folder.read("out.pcap") == folder.read("same.pcap"));

        let back = format!("back.{codec}");
        folder.run(&["receive", "out.pcap", &back]).says(0, &[]);
        folder
            .shell("cat out.pcap | \"$0\" receive - - >piped")
            .says(0, &["receiving SSRC"]);
        assert!(folder.read("piped") == folder.read(&back));
        for options in ["", "--summary", "--json"] {
            let inspect = format!("\"$0\" inspect {options}");
            let of_file = folder.shell(&format!("{inspect} out.pcap"));
            let of_pipe = folder.shell(&format!("cat out.pcap | {inspect} -"));
            of_pipe.says(0, &[]);
            assert_eq!(of_file.out, of_pipe.out);
        }
        assert!(!folder.names().contains(&"-".into()));
    }
}

/// A file that a shell opened is read twice, as one that is named, and from where it stands.
#[test]
fn a_file_as_standard_input() {
    let folder = Folder::new();
    // The greater stream comes last.
    let mut frames: Vec<Vec<u8>> = Vec::new();
    for (ssrc, packets) in [(1, slices(0..100)), (2, slices(0..200))] {
        for packet in packets {
            let mut bytes = packet.bytes();
            bytes[11] = ssrc;
            frames.push(ethernet(&[], 0x0800, &ipv4(&[], 0, &udp(&bytes))));
        }
    }
    folder.write("in.pcap", &[b"front".to_vec(), pcap(&frames)].concat());
    let skip = "dd bs=5 count=1 of=front 2>err";
    let ran = folder.shell(&format!(
        "{{ {skip}; \"$0\" inspect --summary -; }} <in.pcap"
    ));
    ran.says(0, &["SSRC 0x01020302", "200 packets of"]);
    // A pipe is read once: there the first is taken that has enough.
    let ran = folder.shell(&format!(
        "cat in.pcap | {{ {skip}; \"$0\" inspect --summary -; }}"
    ));
    ran.says(0, &["SSRC 0x01020301", "100 packets of"]);
}

/// What came is printed, and written, though the pipe isn't at its end.
#[test]
fn a_live_pipe() {
    for (words, len) in [
        (&["inspect", "-"][..], 100),
        (&["receive", "-", "-", "--lengths"], 100),
    ] {
        let mut child = Command::new(PROGRAM)
            .args(words)
            .stdin(Stdio::piped())
            .stdout(Stdio::piped())
            .stderr(Stdio::null())
            .spawn()
            .expect("the program");
        let mut to = child.stdin.take().expect("a pipe");
        let out = child.stdout.take().expect("a pipe");
        // A line feed in each payload makes lines of units as well.
        let mut packets = slices(1000..1200);
        packets.iter_mut().for_each(|it| it.payload.push(b'\n'));
        to.write_all(&pcap_with(&packets)).expect("it reads");
        to.flush().expect("it reads");
        // It would wait for ever if it kept what it has.
        let lines = BufReader::new(out).split(b'\n').take(len);
        assert_eq!(lines.filter(Result::is_ok).count(), len);
        drop(to);
        child.wait().expect("it ends");
    }
}

/// However much comes, no more memory is taken.
#[test]
fn a_long_pipe_in_little_memory() {
    let mut child = Command::new("sh")
        .args([
            "-c",
            "ulimit -v 100000; exec \"$0\" receive - /dev/null --codec h264 2>/dev/null",
            PROGRAM,
        ])
        .stdin(Stdio::piped())
        .spawn()
        .expect("the program");
    let mut to = child.stdin.take().expect("a pipe");
    let long = |number| Rtp::new(number, 0, true, &[&[0x41, 0x9a][..], &[7; 40_000]].concat());
    to.write_all(&pcap_with(&[])).expect("it reads");
    for first in (0..3000).step_by(100) {
        let packets: Vec<Rtp> = (first..first + 100).map(long).collect();
        to.write_all(&pcap_with(&packets)[24..]).expect("it reads");
    }
    drop(to);
    assert!(child.wait().expect("it ends").success());
}

/// A record that is passed over, and one longer than what is kept of a pipe.
#[test]
fn long_records_of_a_pipe() {
    for (len, status) in [(1u32 << 20, 0), (20 << 20, 1)] {
        let folder = Folder::new();
        let capture = pcap_with(&three_packets());
        let (header, records) = capture.split_at(24);
        let mut long = header.to_vec();
        for word in [0, 0, len, len] {
            long.extend(word.to_le_bytes());
        }
        long.resize(long.len() + len as usize, 0);
        folder.write("in.pcap", &[&long[..], records].concat());
        let ran = folder.shell("cat in.pcap | \"$0\" receive - out.h264");
        assert_eq!(ran.status, status, "{ran:#?}");
        if status == 0 {
            assert_eq!(folder.read("out.h264"), THREE_UNITS);
        } else {
            let why = "the first 8 MiB were looked at; save the capture in a file first";
            ran.says(1, &["-: there is no RTP stream in it", why]);
        }
        folder
            .run(&["receive", "in.pcap", "file.h264"])
            .says(0, &[]);
        assert_eq!(folder.read("file.h264"), THREE_UNITS);
    }
}

#[test]
fn what_a_pipe_cannot() {
    let folder = Folder::new();
    folder.write("in.pcap", &pcap_with(&three_packets()));
    folder
        .shell("cat in.pcap | \"$0\" inspect --all -")
        .says(1, &["a pipe is read once; save it in a file first"]);
    folder
        .shell("\"$0\" inspect - </dev/null")
        .says(1, &["-: the capture is empty"]);
    folder
        .shell("printf '\\037\\213\\010\\000' | \"$0\" inspect -")
        .says(1, &["-: the capture is compressed by gzip, and is damaged"]);
    folder
        .shell("\"$0\" send - out.pcap <in.pcap")
        .says(2, &["-: its ending tells no codec"]);
    // A file of this name has a folder in front of it.
    folder.write("-", &pcap_with(&three_packets()));
    folder
        .run(&["inspect", "./-", "--summary"])
        .says(0, &["3 packets of"]);
}
