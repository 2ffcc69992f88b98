//! What `inspect` says of rates, of odd streams and of packed captures, and in which forms.

use crate::build::{Order, Rtp, frame, pcap_of, pcap_with};
use crate::program::{Folder, Ran};
use serde_json::{Value, json};
use std::process::Command;

const SPS: &[u8] = &[0x67, 0x42, 0xc0, 0x1f];
const IDR: &[u8] = &[0x65, 0x88, 1, 2];
const SLICE: &[u8] = &[0x41, 0x9a, 1];
const LATER: &[u8] = &[0x41, 0x42, 1];

/// A capture in microseconds of packets at these.
fn pcap_at(packets: &[(u32, Rtp)]) -> Vec<u8> {
    let mut file = pcap_of(Order::Little, 0xa1b2_c3d4, 1, &[]);
    for (micros, packet) in packets {
        let frame = frame(packet);
        let len = frame.len() as u32;
        for word in [
            1_700_000_000 + micros / 1_000_000,
            micros % 1_000_000,
            len,
            len,
        ] {
            file.extend(word.to_le_bytes());
        }
        file.extend(frame);
    }
    file
}

fn inspect(capture: &[u8], options: &[&str]) -> Ran {
    let folder = Folder::new();
    folder.write("in.pcap", capture);
    folder.run(&[&["inspect", "in.pcap"], options].concat())
}

fn objects(text: &str) -> Vec<Value> {
    let object = |line| serde_json::from_str(line).expect("an object");
    text.lines().map(object).collect()
}

/// Four pictures of 3000 ticks each, 1/30 s, sent every 40 ms; the third one is lost. Between the first
/// two packets that is 6.667 ms too much, and the third comes 80 ms and 6000 ticks later, 13.333 ms too
/// much (RFC 3550, A.8): 6.667 / 16 = 0.417, and 0.417 + (13.333 - 0.417) / 16 = 1.224.
fn uneven() -> Vec<u8> {
    pcap_at(&[
        (0, Rtp::new(1, 0, true, IDR)),
        (40_000, Rtp::new(2, 3000, true, SLICE)),
        (120_000, Rtp::new(4, 9000, true, IDR)),
    ])
}

#[test]
fn rates_in_words() {
    inspect(&uneven(), &["--summary"]).says(
        3,
        &[
            "duration: 0.120000 s; 25.0 packets and 0.7 kbit of payload a second\n",
            "loss: 25.00 %; jitter: 1.224 ms, 1.224 ms at most (RFC 3550, A.8); reordered: 0 packets\n",
            "access unit size: 7 bytes at least, 8 in the middle, 8 at most\n",
            "keyframe interval: 0.100 s at least, 0.100 in the middle, 0.100 at most\n",
            "0 access units: clean",
        ],
    );
}

/// The same numbers as objects, with which `--summary` are the stream's and the totals' alone.
#[test]
fn rates_in_json() {
    let said = inspect(&uneven(), &["--json", "--summary"]);
    let [stream, totals] = &objects(&said.out)[..] else {
        panic!("two objects: {said:?}");
    };
    assert_eq!(
        (&stream["is"], &totals["is"]),
        (&json!("stream"), &json!("totals"))
    );
    let near = |name: &str, wanted: f64| {
        let told = totals[name].as_f64().expect("a number");
        assert!((told - wanted).abs() < 1e-6 * wanted, "{name}: {told}");
    };
    near("seconds", 0.12);
    near("packets_a_second", 25.0);
    near("bits_a_second", 11.0 * 8.0 / 0.12);
    near("loss_percent", 25.0);
    near("jitter_seconds", 0.001_223_958_333);
    assert_eq!(
        totals["access_unit_bytes"],
        json!({"least": 7, "middle": 8, "greatest": 8})
    );
    assert_eq!(totals["keyframe_seconds"]["middle"], json!(0.1));
    let all = objects(&inspect(&uneven(), &["--json"]).out);
    let units = all.iter().filter(|it| it["is"] == "access unit");
    let seconds: Vec<f64> = units.filter_map(|it| it["seconds"].as_f64()).collect();
    assert_eq!(seconds, [0.0, 0.04, 0.12]);
}

/// Of one packet there is no rate.
#[test]
fn what_is_not_known() {
    let capture = pcap_at(&[(0, Rtp::new(1, 0, true, SLICE))]);
    let said = inspect(&capture, &["--json", "--summary", "--codec", "h264"]);
    let totals = objects(&said.out).pop().expect("totals");
    assert_eq!(totals["seconds"], json!(0.0));
    for name in ["packets_a_second", "bits_a_second", "keyframe_seconds"] {
        assert_eq!(totals[name], Value::Null, "{name}");
    }
    inspect(&capture, &["--codec", "h264"]).says(
        0,
        &[
            "duration: 0.000000 s\n",
            "keyframe interval: none, of fewer than two keyframes",
        ],
    );
}

/// Thirty-two packets, two of each picture, of which the second has the marker.
fn pictures(change: impl Fn(u16, &mut Rtp)) -> Vec<Rtp> {
    let picture = |number: u16| {
        let payload = match number {
            0 => SPS,
            1 => IDR,
            _ if number % 2 == 1 => LATER,
            _ => SLICE,
        };
        let mut packet = Rtp::new(
            number,
            u32::from(number / 2) * 3000,
            number % 2 == 1,
            payload,
        );
        change(number, &mut packet);
        packet
    };
    (0..32).map(picture).collect()
}

#[test]
fn odd_streams() {
    let sound = inspect(&pcap_with(&pictures(|_, _| {})), &["--summary"]);
    assert!(!sound.out.contains("odd: "), "{sound:?}");
    type Change = fn(u16, &mut Rtp);
    let rows: [(Change, &str); 5] = [
        (|_, it| it.timestamp = 7, "odd: its timestamp stands still"),
        (|_, it| it.marker = false, "odd: no packet has the marker"),
        (|_, it| it.marker = true, "odd: markers stand on each slice"),
        (
            |at, it| {
                if at == 0 {
                    it.payload = SLICE.to_vec()
                }
            },
            "odd: no parameter sets are in it",
        ),
        (
            |at, it| {
                if at == 1 {
                    it.payload = SLICE.to_vec()
                }
            },
            "odd: no keyframe is in it",
        ),
    ];
    for (change, said) in rows {
        let ran = inspect(&pcap_with(&pictures(change)), &["--summary"]);
        let odd: Vec<&str> = ran
            .out
            .lines()
            .filter(|it| it.starts_with("odd: "))
            .collect();
        assert!(
            odd.len() == 1 && odd[0].starts_with(said),
            "{said}: {odd:?}"
        );
        let totals = objects(&inspect(&pcap_with(&pictures(change)), &["--json"]).out).pop();
        let told = totals.expect("totals")["told"].to_string();
        assert!(told.contains(said), "{said}: {told}");
    }
}

/// A payload type before each payload (RFC 2198, 3: the last block has a header of a byte), here 108.
#[test]
fn redundant_payloads() {
    let packets = pictures(|_, it| it.payload.insert(0, 108));
    let packets = pcap_with(&packets);
    let guessed = [
        "guessed, by what its packets look like: --red 96; else",
        "payload type 108,",
    ];
    inspect(&packets, &["--summary"]).says(0, &guessed);
    let as_it_is = ["--summary", "--codec", "h264", "--payload-type", "96"];
    inspect(&packets, &as_it_is).says(
        0,
        &["odd: its payloads look as redundant payloads (RED, RFC 2198) of H.264"],
    );
}

/// A number before each payload (RFC 4588, 4), beside the stream itself.
#[test]
fn retransmissions() {
    let mut packets = pictures(|_, _| {});
    let again = pictures(|at, it| {
        let original = (30_000 + at).to_be_bytes();
        it.payload.splice(..0, original);
        it.sequence += 500;
    });
    let others = again.iter().map(|packet| {
        let mut bytes = frame(packet);
        bytes[14 + 20 + 8 + 1] ^= 96 ^ 97;
        bytes
    });
    packets.truncate(32);
    let frames: Vec<Vec<u8>> = packets.iter().map(frame).chain(others).collect();
    let capture = pcap_of(Order::Little, 0xa1b2_c3d4, 1, &frames);
    let guessed = "guessed, by what its packets look like: --rtx 97=96; else";
    let again = "32 packets: passed over, sent again by RTX";
    inspect(&capture, &["--summary"]).says(0, &[guessed, again]);
    let ran = inspect(
        &capture,
        &["--summary", "--payload-type", "97", "--codec", "h264"],
    );
    assert!(
        ran.out.contains("which look as") || ran.out.contains("odd: its payloads look as"),
        "{ran:#?}"
    );
}

/// Bytes of a generator (x = 5 x + 3 modulo 2^32, the highest eight bits) stand for encrypted ones.
#[test]
fn encrypted_payloads() {
    let mut state = 1_u32;
    let mut random = || {
        state = state.wrapping_mul(1_664_525).wrapping_add(1_013_904_223);
        (state >> 24) as u8
    };
    let packets: Vec<Rtp> = (0..200)
        .map(|at| {
            let payload: Vec<u8> = (0..40).map(|_| random()).collect();
            Rtp::new(at, u32::from(at) * 3000, true, &payload)
        })
        .collect();
    inspect(&pcap_with(&packets), &[]).says(
        1,
        &["they look as random bytes, as encrypted ones do (SRTP, RFC 3711)"],
    );
    inspect(&pcap_with(&packets), &["--codec", "h264", "--summary"])
        .says(3, &["odd: its payloads look as random bytes"]);
}

/// A capture that gzip packed is read as it was: from a file, from a pipe, and as far as it came.
#[test]
fn captures_that_gzip_packed() {
    let folder = Folder::new();
    folder.write("in.pcap", &pcap_with(&pictures(|_, _| {})));
    let packed = Command::new("gzip")
        .args(["-k", "in.pcap"])
        .current_dir(folder.path(""))
        .status();
    assert!(packed.expect("gzip").success());
    let plain = folder.run(&["inspect", "in.pcap"]);
    plain.says(0, &["32 packets of"]);
    let read = folder.run(&["inspect", "in.pcap.gz"]);
    assert_eq!((read.status, &read.out), (0, &plain.out));
    let piped = folder
        .shell("cat in.pcap.gz in.pcap.gz | head -c $(stat -c %s in.pcap.gz) | \"$0\" inspect -");
    assert_eq!((piped.status, &piped.out), (0, &plain.out));
    let whole = folder.read("in.pcap.gz");
    folder.write("cut.pcap.gz", &whole[..whole.len() / 2]);
    folder
        .run(&["inspect", "cut.pcap.gz"])
        .says(3, &["compressed by gzip, and is cut off or damaged"]);
    folder
        .run(&["receive", "in.pcap.gz", "out.h264"])
        .says(0, &["32 packets of"]);
}

/// What a command's own help says, and what it leaves to others.
#[test]
fn help_of_a_command() {
    let folder = Folder::new();
    let help = folder.run(&["inspect", "--help"]);
    help.says(
        0,
        &[
            "h26x inspect IN.pcap",
            "--summary",
            "--window N",
            "Status: 0 all went well",
        ],
    );
    assert!(
        !help.out.contains("--mtu") && !help.out.contains("h26x send"),
        "{help:?}"
    );
    let send = folder.run(&["send", "--help"]);
    send.says(
        0,
        &[
            "h26x send IN.h264 OUT.pcap ",
            "\n    h26x send IN.h264 udp://HOST:PORT ",
        ],
    );
    folder.run(&["help"]).says(0, &["--mtu BYTES", "--summary"]);
}
