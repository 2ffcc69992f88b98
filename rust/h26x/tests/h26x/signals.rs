//! Signals that end the program while it writes.

use crate::build::{Rtp, pcap_with};
use crate::program::{Folder, PROGRAM};
use std::io::Write;
use std::os::unix::process::ExitStatusExt;
use std::process::{Child, ChildStdin, Command, Stdio};
use std::thread::sleep;
use std::time::{Duration, Instant};

/// Who starts the tests may have signals ignored, as a shell has INT of what runs in the background.
const RESET: &str = "exec env --default-signal";

/// The program, called as `before` says, which receives a stream through a pipe that doesn't end, into
/// `out.h264`.
fn receiving(folder: &Folder, before: &str) -> (Child, ChildStdin) {
    let line = format!("{before} \"$0\" receive - out.h264 2>/dev/null");
    let mut child = Command::new("sh")
        .args(["-c", &line, PROGRAM])
        .current_dir(folder.path(""))
        .stdin(Stdio::piped())
        .spawn()
        .expect("the program");
    let slice = |i: u16| Rtp::new(i, 0, true, &[0x41, 0x9a, 1]);
    let capture = pcap_with(&(0..200).map(slice).collect::<Vec<_>>());
    // Waiting for the program would close it.
    let mut to = child.stdin.take().expect("a pipe");
    to.write_all(&capture).expect("it reads");
    // It has a part once it writes.
    let begin = Instant::now();
    while folder.names().is_empty() {
        assert!(begin.elapsed() < Duration::from_secs(20), "no part");
        sleep(Duration::from_millis(5));
    }
    (child, to)
}

fn kill(child: &Child, signal: &str) {
    let line = format!("kill -s {signal} {}", child.id());
    let killed = Command::new("sh").args(["-c", &line]).status();
    assert!(killed.is_ok_and(|status| status.success()));
}

/// The part is removed, and the program ends as by the signal.
#[test]
fn signals_remove_the_part() {
    for (name, number) in [("HUP", 1), ("INT", 2), ("TERM", 15)] {
        let folder = Folder::new();
        let (mut child, _to) = receiving(&folder, RESET);
        assert!(folder.names()[0].ends_with(".part"), "{:?}", folder.names());
        kill(&child, name);
        let status = child.wait().expect("it ends");
        assert_eq!(status.signal(), Some(number), "{status:?}");
        assert_eq!(folder.names(), [""; 0]);
    }
}

/// Who has a signal ignored, as `nohup` has, isn't ended by it.
#[test]
fn signals_that_are_ignored() {
    let folder = Folder::new();
    let (mut child, to) = receiving(&folder, "trap '' HUP; exec");
    kill(&child, "HUP");
    drop(to);
    assert!(child.wait().expect("it ends").success());
    assert_eq!(folder.names(), ["out.h264"]);
}
