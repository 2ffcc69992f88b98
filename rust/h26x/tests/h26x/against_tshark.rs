//! What is sent, as tshark reads it, and captures as editcap writes them; left out where they are
//! missing.

use crate::program::{Folder, small_streams};
use std::process::Command;

/// Fields of the packets of a capture, a line each, or nothing where tshark is missing.
fn fields(folder: &Folder, codec: &str, fields: &[&str]) -> Option<Vec<Vec<String>>> {
    let mut tshark = Command::new("tshark");
    tshark.arg("-n").arg("-r").arg(folder.path("out.pcap"));
    tshark.args([
        "-d",
        "udp.port==5004,rtp",
        "-d",
        &format!("rtp.pt==96,{codec}"),
        "-T",
        "fields",
    ]);
    for field in fields {
        tshark.args(["-e", field]);
    }
    let Ok(output) = tshark.output() else {
        eprintln!("left out, since tshark is missing");
        return None;
    };
    let text = String::from_utf8(output.stdout).expect("text");
    let row = |line: &str| line.split('\t').map(String::from).collect();
    Some(text.lines().map(row).collect())
}

/// What `inspect` says of packets: sequence, timestamp, marker, bytes; and the type with its marks.
fn inspected(folder: &Folder) -> Vec<([String; 4], String)> {
    let ran = folder.run(&["inspect", "out.pcap"]);
    ran.says(0, &[]);
    let row = |line: &str| {
        let marker = if &line[31..32] == "M" { "1" } else { "0" };
        let told = [&line[0..5], &line[19..30], marker, &line[33..38]];
        (
            told.map(|it| it.trim().to_string()),
            line[40..50].trim().to_string(),
        )
    };
    // The lines of packets begin with a number and a time.
    let is_number = |it: &str| it.trim_start().parse::<f64>().is_ok();
    let is_packet =
        |it: &&str| it.get(..5).is_some_and(is_number) && it.get(5..18).is_some_and(is_number);
    ran.out.lines().filter(is_packet).map(row).collect()
}

/// A packet's type with its marks, out of its header's type and its marks as tshark has them.
fn kind(codec: &str, types: &str, first: &str, last: &str) -> String {
    let outer = types.split(',').next().expect("a type");
    let (aggregate, fragment) = match codec {
        "h264" => ("STAP-A", "FU-A"),
        _ => ("AP", "FU"),
    };
    match (outer, first, last) {
        ("24" | "48", ..) => aggregate.into(),
        ("28" | "49", "1", _) => format!("{fragment} S"),
        ("28" | "49", _, "1") => format!("{fragment} E"),
        ("28" | "49", ..) => format!("{fragment} -"),
        _ => "single".into(),
    }
}

#[test]
fn what_is_sent() {
    let [h264, h265, _] = small_streams();
    let of_types = [
        (
            h264,
            ["h264.nal_unit_hdr", "h264.start.bit", "h264.end.bit"],
        ),
        (
            h265,
            ["h265.nal_unit_type", "h265.start.bit", "h265.end.bit"],
        ),
    ];
    for ((codec, stream), types) in of_types {
        let folder = Folder::new();
        let input = format!("in.{codec}");
        folder.write(&input, &stream);
        let sending = "--ssrc 0x68323658 --sequence 65533 --fps 50 --mtu 200";
        let sending: Vec<&str> = sending.split(' ').collect();
        folder
            .run(&[&["send", &input, "out.pcap"], &sending[..]].concat())
            .says(0, &[]);
        let rtp = [
            "rtp.seq",
            "rtp.timestamp",
            "rtp.marker",
            "udp.length",
            "rtp.p_type",
            "rtp.ssrc",
        ];
        let Some(rows) = fields(&folder, codec, &[&rtp[..], &types].concat()) else {
            return;
        };
        let wanted = rows.iter().map(|row| {
            assert_eq!(row[4..6], ["96", "0x68323658"]);
            // 8 bytes are of UDP's header, and 12 of RTP's.
            let bytes = row[3].parse::<usize>().expect("a length") - 20;
            let told = [
                row[0].clone(),
                row[1].clone(),
                row[2].clone(),
                bytes.to_string(),
            ];
            (told, kind(codec, &row[6], &row[7], &row[8]))
        });
        let wanted: Vec<_> = wanted.collect();
        assert!(
            wanted.iter().any(|it| it.1.ends_with(" -")),
            "a unit takes three packets"
        );
        assert_eq!(inspected(&folder), wanted);
    }
}

#[test]
fn captures_of_another_program() {
    let folder = Folder::new();
    let (_, stream) = &small_streams()[0];
    folder.write("in.h264", stream);
    folder.run(&["send", "in.h264", "out.pcap"]).says(0, &[]);
    for format in ["pcapng", "nsecpcap", "pcap"] {
        let (from, to) = (folder.path("out.pcap"), folder.path("other.cap"));
        let converted = Command::new("editcap")
            .args(["-F", format])
            .arg(from)
            .arg(to)
            .status();
        if !converted.is_ok_and(|status| status.success()) {
            eprintln!("left out, since editcap is missing");
            return;
        }
        folder
            .run(&["receive", "other.cap", "back.h264"])
            .says(0, &[]);
        let [sent, back] = ["out.pcap", "other.cap"].map(|name| folder.run(&["inspect", name]).out);
        assert_eq!(sent, back);
    }
}
