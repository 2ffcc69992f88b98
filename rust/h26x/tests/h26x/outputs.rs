//! What is written: whose it is, where links lead, and what stays where it can't be written whole.

use crate::build::{Rtp, THREE_UNITS, pcap_with, three_packets};
use crate::program::{Folder, Ran};
use std::fs::{self, Permissions};
use std::os::unix::fs::{MetadataExt, PermissionsExt, chown, symlink};

const RECEIVE: &str = "\"$0\" receive in.pcap out.h264";

/// A folder with a capture of three packets.
fn folder() -> Folder {
    let folder = Folder::new();
    folder.write("in.pcap", &pcap_with(&three_packets()));
    folder
}

fn mode(folder: &Folder, name: &str) -> u32 {
    let about = fs::metadata(folder.path(name)).expect("a file");
    about.mode() & 0o7777
}

/// Runs a line of Python that asks for or sets attributes; nothing where it can't.
fn python(folder: &Folder, line: &str) -> Option<Ran> {
    let ran = folder.shell(&format!("python3 -c 'import os; {line}'"));
    if ran.status != 0 {
        eprintln!("left out, since Python is missing, or access lists: {ran:?}");
        return None;
    }
    Some(ran)
}

#[test]
fn the_mode_of_what_is_replaced() {
    for kept in [0o600, 0o640, 0o444, 0o666, 0o751] {
        let folder = folder();
        let path = folder.write("out.h264", b"before");
        fs::set_permissions(&path, Permissions::from_mode(kept)).expect("a mode");
        folder.shell(RECEIVE).says(0, &[]);
        assert_eq!(folder.read("out.h264"), THREE_UNITS);
        assert_eq!(mode(&folder, "out.h264"), kept, "{kept:o}");
    }
}

/// A new file has the mode of new files; and one that is replaced no longer runs as its owner.
#[test]
fn the_mode_of_what_is_new() {
    for (umask, wanted) in [("022", 0o644), ("077", 0o600), ("000", 0o666)] {
        let folder = folder();
        folder
            .shell(&format!("umask {umask}; {RECEIVE}"))
            .says(0, &[]);
        assert_eq!(mode(&folder, "out.h264"), wanted, "{umask}");
    }
    let folder = folder();
    let path = folder.write("out.h264", b"before");
    fs::set_permissions(&path, Permissions::from_mode(0o4755)).expect("a mode");
    folder.shell(RECEIVE).says(0, &[]);
    assert_eq!(mode(&folder, "out.h264"), 0o755);
}

#[test]
fn the_owner_of_what_is_replaced() {
    let folder = folder();
    let path = folder.write("out.h264", b"before");
    if chown(&path, Some(1234), Some(2345)).is_err() {
        eprintln!("left out, since this user may give no file away");
        return;
    }
    folder.shell(RECEIVE).says(0, &[]);
    let about = fs::metadata(&path).expect("a file");
    assert_eq!((about.uid(), about.gid()), (1234, 2345));
}

/// A list by which a user of number 1234 may read, written as Linux keeps it.
const LIST: &str = "import struct; acl = struct.pack(\"<I\", 2) + b\"\".join(struct.pack(\"<HHI\", *it) for it in \
    [(1, 6, 2**32 - 1), (2, 4, 1234), (4, 0, 2**32 - 1), (16, 4, 2**32 - 1), (32, 0, 2**32 - 1)])";

#[test]
fn the_access_list_of_what_is_replaced() {
    let folder = folder();
    folder.write("out.h264", b"before");
    let set = format!(
        "{LIST}; os.setxattr(\"out.h264\", \"system.posix_acl_access\", acl); \
         os.setxattr(\"out.h264\", \"user.of\", b\"camera\")"
    );
    let get =
        "print([(it, os.getxattr(\"out.h264\", it)) for it in sorted(os.listxattr(\"out.h264\"))])";
    if python(&folder, &set).is_none() {
        return;
    }
    let before = python(&folder, get).expect("it is there").out;
    assert!(before.contains("posix_acl_access"), "{before}");
    folder.shell(RECEIVE).says(0, &[]);
    assert_eq!(folder.read("out.h264"), THREE_UNITS);
    assert_eq!(python(&folder, get).expect("it is there").out, before);
    assert_eq!(mode(&folder, "out.h264"), 0o640);
}

/// A list that a folder gives to new files is given to those alone.
#[test]
fn the_access_list_of_new_files() {
    let folder = folder();
    let path = folder.write("out.h264", b"before");
    fs::set_permissions(&path, Permissions::from_mode(0o600)).expect("a mode");
    let set = format!("{LIST}; os.setxattr(\".\", \"system.posix_acl_default\", acl)");
    if python(&folder, &set).is_none() {
        return;
    }
    folder.shell(RECEIVE).says(0, &[]);
    folder.run(&["receive", "in.pcap", "new.h264"]).says(0, &[]);
    let lists = "print(os.listxattr(\"out.h264\"), os.listxattr(\"new.h264\"))";
    let lists = python(&folder, lists).expect("it is there").out;
    assert_eq!(lists, "[] ['system.posix_acl_access']\n");
    assert_eq!(mode(&folder, "out.h264"), 0o600);
}

/// Links are followed to their end, also where nothing is there yet.
#[test]
fn links_behind_links() {
    for is_there in [true, false] {
        let folder = folder();
        fs::create_dir(folder.path("sub")).expect("a folder");
        for (link, to) in [("out.h264", "sub/b"), ("sub/b", "../c"), ("c", "sub/real")] {
            symlink(to, folder.path(link)).expect("a link");
        }
        if is_there {
            folder.write("sub/real", b"before");
        }
        folder.shell(RECEIVE).says(0, &[]);
        for link in ["out.h264", "sub/b", "c"] {
            assert!(folder.path(link).is_symlink(), "{link}");
        }
        assert!(!folder.path("sub/real").is_symlink());
        assert_eq!(folder.read("sub/real"), THREE_UNITS);
    }
    let folder = folder();
    symlink("b", folder.path("out.h264")).expect("a link");
    symlink("out.h264", folder.path("b")).expect("a link");
    folder
        .shell(RECEIVE)
        .says(1, &["out.h264: it can't be written"]);
    assert_eq!(folder.names(), ["b", "in.pcap", "out.h264"]);
}

/// A capture of more bytes than fit where they are to be written.
fn long() -> Vec<u8> {
    let packet = |i: u16| Rtp::new(i, 0, true, &[&[0x41, 0x9a][..], &[7; 1200]].concat());
    pcap_with(&(0..2000).map(packet).collect::<Vec<_>>())
}

/// Where files may be no longer, what was there stays, and no part.
#[test]
fn files_that_grow_too_long() {
    let folder = folder();
    folder.write("in.pcap", &long());
    folder.write("out.h264", b"before");
    let ran = folder.shell(&format!("ulimit -c 0; ulimit -f 64; exec {RECEIVE}"));
    ran.says(1, &["out.h264: it grew longer than files may be there"]);
    assert_eq!(folder.read("out.h264"), b"before");
    assert_eq!(folder.names(), ["in.pcap", "out.h264"]);
}

/// A disk of 256 kB.
#[test]
fn a_full_disk() {
    let folder = folder();
    folder.write("in.pcap", &long());
    let line = "mkdir disk && unshare -rm sh -c 'mount -t tmpfs -o size=256k none disk || exit 99; \
        printf before >disk/out.h264; \"$0\" receive in.pcap disk/out.h264 2>said; echo $?; \
        cat disk/out.h264; ls -A disk' \"$0\"";
    let ran = folder.shell(line);
    if !matches!(ran.status, 0) {
        eprintln!("left out, since this user may mount nothing: {ran:?}");
        return;
    }
    assert_eq!(ran.out, "1\nbeforeout.h264\n", "{ran:?}");
    let said = folder.read("said");
    assert!(String::from_utf8_lossy(&said).contains("disk/out.h264: there is no room left"));
}

/// A name can't have a terminal do anything.
#[test]
fn names_that_are_no_text() {
    let folder = folder();
    for (name, shown) in [
        ("\\033]0;title\\007", "\\u{1b}]0;title\\u{7}: "),
        ("a\\nb", "a\\u{a}b: "),
        ("\\377\\303\\244", "\\xff\u{e4}: "),
        ("\\342\\200\\256x", "\\u{202e}x: "),
    ] {
        let name = format!("\"$(printf '{name}')\"");
        let ran = folder.shell(&format!("\"$0\" inspect {name}"));
        ran.says(1, &[&format!("h26x: {shown}there is no such file")]);
        let ran = folder.shell(&format!("\"$0\" receive --all in.pcap {name}"));
        ran.says(1, &[shown]);
        assert!(!ran.err.contains('\x1b'));
    }
    let ran = folder.shell("\"$0\" \"$(printf '\\033[2J')\"");
    ran.says(2, &["there is no command \\u{1b}[2J"]);
}

/// What goes nowhere is no success.
#[test]
fn standard_output_that_is_closed() {
    let folder = folder();
    folder.write("in.h264", &[0, 0, 1, 0x65, 0x88, 1]);
    for words in [
        "inspect in.pcap",
        "inspect --json in.pcap",
        "receive in.pcap -",
        "send in.h264 -",
        "--help",
        "--version",
        "man",
        "completion bash",
    ] {
        let closed = folder.shell(&format!("\"$0\" {words} >&-"));
        closed.says(1, &["standard output is closed"]);
        let thrown = folder.shell(&format!("\"$0\" {words} >/dev/null"));
        thrown.says(0, &[]);
        let both = folder.shell(&format!("\"$0\" {words} <>/dev/null 1<&0"));
        both.says(0, &[]);
    }
    folder.shell(&format!("{RECEIVE} >&-")).says(0, &[]);
    assert_eq!(folder.read("out.h264"), THREE_UNITS);
}
