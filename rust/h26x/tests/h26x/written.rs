//! What the program says in other forms: JSON, colours, its manual page, completions; and what `send`
//! draws.

use crate::build::{Rtp, pcap_with};
use crate::program::{Folder, small_streams};
use serde_json::{Value, json};
use std::process::Command;

fn objects(text: &str) -> Vec<Value> {
    let object = |line: &str| serde_json::from_str(line).expect("an object");
    text.lines().map(object).collect()
}

/// What each packet has, one of a unit alone that is no keyframe.
fn common(sequence: u16, seconds: f64, marker: bool, bytes: usize) -> Value {
    json!({
        "is": "packet", "sequence": sequence, "seconds": seconds,
        "timestamp": u32::from(sequence) * 90, "marker": marker, "bytes": bytes, "padding": 0,
        "moved": false, "recovered": false, "packet": "single", "keyframe": false, "lost_before": 0,
    })
}

/// An object with more, or other, fields.
fn with(mut object: Value, more: Value) -> Value {
    let more = more.as_object().expect("an object").clone();
    object.as_object_mut().expect("an object").extend(more);
    object
}

/// An access unit of one packet, or of those of one number, that no decoder can show.
fn unit(sequence: u16, seconds: f64, bytes: usize, missing: u32, is_whole: bool) -> Value {
    json!({
        "is": "access unit", "seconds": seconds, "timestamp": u32::from(sequence) * 90, "bytes": bytes,
        "keyframe": false, "first": sequence, "last": sequence, "missing": missing,
        "continues": false, "whole": is_whole, "clean": false, "disposable": false,
    })
}

/// Sets in an aggregate, fragments, a loss, one twice, one late, a stray and padding.
fn sent() -> [Rtp; 7] {
    let packet = |sequence: u16, marker, payload: &[u8]| {
        Rtp::new(sequence, u32::from(sequence) * 90, marker, payload)
    };
    let mut padding = packet(10, false, &[0, 0, 3]);
    padding.payload = vec![0, 0, 3];
    [
        packet(
            5,
            false,
            &[0x78, 0, 4, 0x67, 0x42, 0xc0, 0x1f, 0, 2, 0x68, 0xce],
        ),
        packet(6, true, &[0x7c, 0x85, 0x88]),
        packet(9, true, &[0x41, 0x9a, 1]),
        packet(9, true, &[0x41, 0x9a, 1]),
        packet(8, true, &[0x5e, 0x85]),
        packet(30_000, true, &[0x41]),
        padding,
    ]
}

/// The objects of these, up to the totals.
fn wanted() -> [Value; 10] {
    let slice = json!([{"type": "slice", "bytes": 3}]);
    [
        json!({
            "is": "stream", "ssrc": 0x0102_0304, "payload_type": 96, "address": "192.0.2.2",
            "port": 5004, "codec": "h264",
        }),
        with(
            common(5, 0.0, false, 11),
            json!({
                "packet": "STAP-A", "became": "taken", "gave_up": false,
                "units": [{"type": "SPS", "bytes": 4}, {"type": "PPS", "bytes": 2}],
            }),
        ),
        unit(5, 0.0, 14, 0, true),
        with(
            common(6, 0.001, true, 3),
            json!({
                "packet": "FU-A", "became": "taken", "gave_up": false, "keyframe": true,
                "units": [{"type": "IDR slice", "first": true, "last": false}],
            }),
        ),
        with(
            common(9, 0.002, true, 3),
            json!({
                "became": "taken", "gave_up": true, "lost_before": 2, "units": slice,
            }),
        ),
        unit(9, 0.002, 7, 2, false),
        json!({"is": "twice", "sequence": 9}),
        with(
            common(8, 0.004, true, 2),
            json!({"became": "late", "units": []}),
        ),
        json!({
            "is": "packet", "sequence": 10, "seconds": 0.006, "timestamp": 900, "marker": false,
            "bytes": 0, "padding": 3, "moved": false, "recovered": false, "became": "padding", "lost_before": 0,
        }),
        json!({"is": "stray", "sequence": 30_000}),
    ]
}

/// Compares what is counted.
#[track_caller]
fn check_totals(totals: &Value) {
    for (name, count) in [
        ("packets", 5),
        ("bytes", 19),
        ("access_units", 2),
        ("keyframes", 0),
        ("whole", 1),
        ("clean", 0),
        ("lost", 2),
        ("refused", 0),
        ("no_unit", 0),
        ("late", 1),
        ("twice", 1),
        ("moved", 0),
        ("strays", 1),
        ("anew", 0),
        ("cut", 0),
        ("padding", 1),
        ("units_given_up", 1),
        ("units_too_long", 0),
    ] {
        assert_eq!(totals[name], json!(count), "{name}");
    }
    assert_eq!(totals["told"][0], "lost: 2 packets: 2 before 9");
}

/// Each kind of object, with all that the manual page says of it.
#[test]
fn objects_of_json() {
    let sent = sent();
    let mut capture = pcap_with(&sent);
    let last = capture.len() - 15;
    assert_eq!(capture[last], 0x80, "the header of the last packet");
    capture[last] |= 0x20;
    let folder = Folder::new();
    folder.write("in.pcap", &capture);
    let ran = folder.run(&["inspect", "in.pcap", "--json", "--window", "0"]);
    assert_eq!((ran.status, ran.err.as_str()), (3, ""));
    let objects = objects(&ran.out);
    assert_eq!(objects[..10], wanted());
    check_totals(&objects[10]);
    let mut refuses = sent.to_vec();
    refuses[4].sequence = 11;
    refuses.remove(3);
    folder.write("in.pcap", &pcap_with(&refuses));
    let ran = folder.run(&["inspect", "in.pcap", "--json", "--codec", "h264"]);
    let mut told = self::objects(&ran.out).into_iter();
    let refused = "type 30 is undefined or reserved; a payload needs type 1 to 23, 24 (STAP-A) or 28 \
        (FU-A) (RFC 6184, 5.2)";
    let reason = told.find(|it| it["sequence"] == 11).expect("it came");
    assert_eq!(reason["became"], "refused");
    assert_eq!(reason["reason"], refused);
    // Each key stands in the manual page.
    let manual = folder.run(&["man"]).out;
    for object in &objects {
        for key in object.as_object().expect("an object").keys() {
            assert!(
                manual.contains(key.as_str()),
                "{key} is not in the manual page"
            );
        }
    }
}

#[test]
fn colors() {
    let folder = Folder::new();
    folder.write(
        "in.pcap",
        &pcap_with(&[1, 3].map(|i| Rtp::new(i, 0, true, &[0x65, 0x88, 1]))),
    );
    let plain = folder.run(&["inspect", "in.pcap"]).out;
    assert!(!plain.contains('\x1b'), "{plain:?}");
    assert_eq!(
        folder.run(&["inspect", "in.pcap", "--color=never"]).out,
        plain
    );
    let colored = folder.run(&["inspect", "in.pcap", "--color", "always"]).out;
    assert!(colored.contains("\x1b[32m  keyframe\x1b[0m"), "{colored:?}");
    assert!(colored.contains("\x1b[33m! lost: 1 packet before 3\x1b[0m"));
    let without = ["\x1b[32m", "\x1b[33m", "\x1b[1m", "\x1b[0m"];
    let uncolored = without
        .iter()
        .fold(colored, |text, code| text.replace(code, ""));
    assert_eq!(uncolored, plain);
}

/// Two runs draw other SSRCs and first numbers, and one seed the same.
#[test]
fn what_send_draws() {
    let folder = Folder::new();
    folder.write("in.h264", &[0, 0, 1, 0x65, 0x88, 1]);
    let sent = |options: &[&str]| {
        folder
            .run(&[&["send", "in.h264", "out.pcap"], options].concat())
            .says(0, &[]);
        let rtp = folder.read("out.pcap")[24 + 16 + 14 + 20 + 8..].to_vec();
        (rtp[2..4].to_vec(), rtp[8..12].to_vec())
    };
    // By chance two of them are the same once in 2 to the 28.
    let drawn: Vec<_> = (0..5).map(|_| sent(&[])).collect();
    for (at, one) in drawn.iter().enumerate() {
        assert!(
            drawn[..at].iter().all(|other| other.1 != one.1),
            "{drawn:?}"
        );
    }
    assert!(drawn.iter().any(|it| it.0 != drawn[0].0), "{drawn:?}");
    assert_eq!(sent(&["--seed", "5"]), sent(&["--seed", "5"]));
    assert_ne!(sent(&["--seed", "5"]), sent(&["--seed", "6"]));
    let given = sent(&["--seed", "5", "--ssrc", "0x01020304", "--sequence", "258"]);
    assert_eq!(given, (vec![1, 2], vec![1, 2, 3, 4]));
}

/// Files with streams in them are told before a codec is asked for.
#[test]
fn files_with_streams_in_them() {
    let folder = Folder::new();
    let rows: [(&[u8], &str); 6] = [
        (b"\0\0\0\x20ftypisom", "an MP4 file"),
        (b"\0\0\0\x18stypmsdh", "a segment of MP4"),
        (b"\0\0\0\x6cmoov\0\0\0\0", "a QuickTime file"),
        (
            b"\x1a\x45\xdf\xa3\x9f\x42\x86\x81",
            "a Matroska or WebM file",
        ),
        (b"FLV\x01\x05\0\0\0\x09", "an FLV file"),
        (b"RIFF\0\x10\0\0AVI LIST", "an AVI file"),
    ];
    for (front, what) in rows {
        folder.write("in", &[front, &[1; 50]].concat());
        let said = format!("in: this is {what}; take the stream out of it first (ffmpeg");
        let codecs: [&[&str]; 3] = [&[], &["--codec", "h264"], &["--codec", "h265", "--lengths"]];
        for codec in codecs {
            folder
                .run(&[&["send", "in", "out.pcap"], codec].concat())
                .says(1, &[&said]);
        }
    }
    assert_eq!(folder.names(), ["in"]);
}

/// What the help says that options are, and that each is in the manual page and the completions.
#[test]
fn each_option_is_written_everywhere() {
    let folder = Folder::new();
    let help = folder.run(&["--help"]).out;
    assert!(
        help.lines().all(|line| line.chars().count() <= 100),
        "{help}"
    );
    let manual = folder.run(&["man"]).out;
    let completions = ["bash", "zsh", "fish"].map(|it| folder.run(&["completion", it]).out);
    let options = help.lines().filter_map(|line| line.strip_prefix("  --"));
    let mut names: Vec<&str> = options
        .map(|it| it.split(' ').next().expect("a name"))
        .collect();
    names.sort_unstable();
    names.dedup();
    assert!(names.len() > 15, "{names:?}");
    for name in names {
        let in_roff = format!("\\fB\\-\\-{}\\fR", name.replace('-', "\\-"));
        assert!(
            manual.contains(&in_roff),
            "{name} is not in the manual page"
        );
        let [bash, zsh, fish] = &completions;
        assert!(bash.contains(&format!("--{name}")), "{name}: bash");
        assert!(zsh.contains(&format!("'--{name}[")), "{name}: zsh");
        assert!(fish.contains(&format!(" -l {name} ")), "{name}: fish");
    }
}

/// Gives a text to a program, which warns of nothing; nothing happens where it is missing. What it
/// prints is passed over where it is to print.
fn is_taken(text: &str, name: &str, words: &[&str], prints: bool) {
    let folder = Folder::new();
    folder.write("text", text.as_bytes());
    let ran = Command::new(name)
        .args(words)
        .stdin(std::fs::File::open(folder.path("text")).expect("a file"))
        .output();
    let Ok(ran) = ran else {
        eprintln!("left out, since {name} is missing");
        return;
    };
    let [out, mut said] =
        [ran.stdout, ran.stderr].map(|it| String::from_utf8_lossy(&it).into_owned());
    if !prints {
        said += &out;
    }
    assert!(ran.status.success() && said.is_empty(), "{name}: {said}");
}

#[test]
fn manual_pages_and_completions_are_sound() {
    let folder = Folder::new();
    let manual = folder.run(&["man"]);
    manual.says(0, &[".TH H26X 1", ".SS Options of send", ".h26x.*.part"]);
    assert!(!manual.out.contains('@'), "{}", manual.out);
    let words = ["--warnings", "-E", "UTF-8", "-l", "-"];
    is_taken(&manual.out, "man", &words, true);
    is_taken(
        &manual.out,
        "mandoc",
        &["-T", "lint", "-W", "warning"],
        false,
    );
    for shell in ["bash", "zsh", "fish"] {
        let script = folder.run(&["completion", shell]);
        script.says(0, &["h26x"]);
        is_taken(&script.out, shell, &["-n"], false);
    }
}

/// What bash offers.
#[test]
fn completions_of_bash() {
    let folder = Folder::new();
    let script = folder.run(&["completion", "bash"]).out;
    folder.write("h26x.bash", script.as_bytes());
    folder.write("in.h265", &small_streams()[1].1);
    let offers = |words: &str| {
        let line = format!(
            "source ./h26x.bash; COMP_WORDS=({words}); COMP_CWORD=$((${{#COMP_WORDS[@]}} - 1)); \
             _h26x; printf '%s\\n' \"${{COMPREPLY[@]}}\""
        );
        let ran = Command::new("bash")
            .args(["-c", &line])
            .current_dir(folder.path(""))
            .output()
            .expect("bash");
        let out = String::from_utf8(ran.stdout).expect("text");
        out.split_whitespace().map(String::from).collect::<Vec<_>>()
    };
    assert_eq!(offers("h26x ins"), ["inspect"]);
    assert_eq!(offers("h26x inspect --js"), ["--json"]);
    assert_eq!(offers("h26x send --js"), [""; 0]);
    assert_eq!(offers("h26x receive --codec ''"), ["h264", "h265", "h266"]);
    assert_eq!(offers("h26x inspect --color a"), ["auto", "always"]);
    assert_eq!(offers("h26x send in."), ["in.h265"]);
    assert_eq!(offers("h26x send --port ''"), [""; 0]);
    assert_eq!(offers("h26x completion z"), ["zsh"]);
}
