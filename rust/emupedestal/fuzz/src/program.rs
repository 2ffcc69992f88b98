//! The program `h26x`, with a capture, a stream or a session description: whatever comes, it ends with a status that
//! it may end with, leaves no part of a file, and writes no more than what came can hold.
//!
//! An input is a byte that picks the command, a text behind its length, which is the session description where the
//! command takes one, and what is read.

use crate::input::Input;
use std::ffi::OsString;
use std::path::{Path, PathBuf};
use std::sync::OnceLock;
use std::{env, fs, process};

/// What the commands call their files, which stand in a folder of the target's own.
const IN: &str = "in";
const SDP: &str = "in.sdp";
const OUT: &str = "out";

/// A command, and how many bytes it writes at most for one that it reads.
type Command = (&'static [&'static str], u64);

/// A unit of a byte gets a start code of four bytes before it, or a length; in a packet of its own that is sent it
/// gets 70 bytes of headers. A packet may be of each of 64 streams.
const RECEIVED: u64 = 4;
const SENT: u64 = 80;
const OF_ALL: u64 = 64 * RECEIVED;
/// In MP4 a picture of its own has 21 bytes beside its units, and 112 where a fragment begins with it.
const RECORDED: u64 = 160;
/// A page has sums of 1024 parts of the time, whatever comes.
const DRAWN: u64 = 100;
/// Deflate makes no more of a byte (RFC 1951).
const UNPACKED: u64 = 1032;

const COMMANDS: [Command; 19] = [
    (&["inspect", IN, "--json"], 0),
    (&["inspect", IN, "--json", "--all"], 0),
    (
        &[
            "inspect", IN, "--codec", "h265", "--donl", "--window", "3", "--wait", "20",
        ],
        0,
    ),
    (
        &[
            "inspect", IN, "--codec", "h266", "--window", "1024", "--color", "always",
        ],
        0,
    ),
    (&["inspect", IN, "--summary", "--sdp", SDP], 0),
    (&["receive", IN, "out/a"], RECEIVED),
    (
        &[
            "receive",
            IN,
            "out/a",
            "--codec",
            "h264",
            "--run-limit",
            "2000",
            "--window",
            "0",
        ],
        RECEIVED,
    ),
    (
        &[
            "receive",
            IN,
            "out/a",
            "--codec",
            "h265",
            "--donl",
            "--lengths",
        ],
        RECEIVED,
    ),
    (&["receive", IN, OUT, "--all", "--lengths"], OF_ALL),
    (&["receive", IN, "out/a", "--sdp", SDP], RECEIVED),
    (
        &["send", IN, "out/a", "--codec", "h264", "--sdp", "out/b"],
        SENT,
    ),
    (
        &[
            "send",
            IN,
            "out/a",
            "--codec",
            "h264",
            "--mtu",
            "3",
            "--fps",
            "30000/1001",
        ],
        SENT,
    ),
    (
        &[
            "send",
            IN,
            "out/a",
            "--codec",
            "h265",
            "--donl",
            "--lengths",
            "--sdp",
            "out/b",
        ],
        SENT,
    ),
    (
        &[
            "send", IN, "out/a", "--codec", "h266", "--mtu", "60", "--sdp", "out/b",
        ],
        SENT,
    ),
    (&["receive", IN, "out/a.mp4"], RECORDED),
    (
        &["receive", IN, "out/a.mp4", "--sdp", SDP, "--clean"],
        RECORDED,
    ),
    (
        &["inspect", IN, "--html", "out/a", "--json", "--summary"],
        DRAWN,
    ),
    (
        &[
            "receive",
            IN,
            "out/a.mp4",
            "--codec",
            "h266",
            "--rtx",
            "97=98",
            "--red",
            "98",
        ],
        RECORDED,
    ),
    (&["receive", IN, OUT, "--all", "--rtx", "97=96"], OF_ALL),
];

/// What the program writes whatever comes: a capture's header, a description, an object of JSON.
const FIXED: u64 = 4096;

/// The folder of the target's own.
fn folder() -> &'static Path {
    static FOLDER: OnceLock<PathBuf> = OnceLock::new();
    FOLDER.get_or_init(|| {
        let folder = env::temp_dir().join(format!("h26x-fuzz-{}", process::id()));
        fs::create_dir_all(folder.join(OUT)).expect("a folder");
        env::set_current_dir(&folder).expect("a folder");
        folder
    })
}

/// Runs a command over an input.
pub fn run(data: &[u8]) {
    let mut input = Input::new(data);
    let (words, most) = COMMANDS[usize::from(input.byte()) % COMMANDS.len()];
    let description = input.bytes();
    let folder = folder();
    fs::write(folder.join(SDP), description).expect("room");
    fs::write(folder.join(IN), input.rest()).expect("room");

    let status = h26x::run(words.iter().map(OsString::from).collect());
    // Of these commands none is told wrong, and those that send leave nothing incomplete.
    let is_send = words[0] == "send";
    assert!(
        matches!((status, is_send), (0 | 1, _) | (3, false)),
        "status {status} of {words:?}"
    );
    let written = take_written(&folder.join(OUT));
    assert!(status != 1 || written.is_empty() || words.contains(&"--all"));
    assert!(status == 1 || most == 0 || !written.is_empty());
    let is_packed = data.windows(2).any(|it| it == [0x1f, 0x8b]);
    let most = if is_packed { most * UNPACKED } else { most };
    let bytes: u64 = written.iter().map(|it| it.1).sum();
    assert!(
        bytes <= most * (data.len() as u64 + FIXED),
        "{bytes} bytes of {}: {words:?}",
        data.len()
    );
}

/// Removes all files of a folder, and answers the name and the length of each; none is a part.
fn take_written(folder: &Path) -> Vec<(OsString, u64)> {
    let entries = fs::read_dir(folder).expect("the folder");
    let take = |entry: fs::DirEntry| {
        let (name, len) = (entry.file_name(), entry.metadata().expect("a file").len());
        fs::remove_file(entry.path()).expect("a file");
        assert!(!name.to_string_lossy().ends_with(".part"), "{name:?}");
        (name, len)
    };
    entries
        .map(|entry| take(entry.expect("an entry")))
        .collect()
}
