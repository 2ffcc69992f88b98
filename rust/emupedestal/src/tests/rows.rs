//! Worked rows as text: a call a line, with what comes of it. The texts, and how they are written, are those of the
//! program `crates/h26x_rows`, which walks them on the proved sources that the modules here are made from; its files
//! and ways have the same names. What is right only where memory lacked is left out, since none lacks here.

mod cutting;
mod dispatch;
mod header_words;
pub(super) mod plain;
mod profiles;
mod receiving;
mod row;
mod said;
mod sending;
mod settings;
mod shown;
mod transmissions;

use cutting::Cutting;
use header_words::HeaderWords;
use profiles::Profiles;
use receiving::Receiver;
use row::{Row, Words, in_full};
use said::Said;
use sending::Sender;
use transmissions::Transmissions;

/// A file of the program.
macro_rules! text {
    ($($path:literal),*) => {
        include_str!(concat!(
            env!("CARGO_MANIFEST_DIR"),
            "/../../crates/h26x_rows/",
            $($path),*
        ))
    };
}

/// Texts, each by the walk that the program takes it by, and by its name.
macro_rules! texts {
    ($($walk:literal: $($name:literal)*;)*) => {
        &[$($(($walk, $name, text!("data/", $name)),)*)*]
    };
}

const TEXTS: &[(&str, &str, &str)] = texts!(
    "sending":
        "h264_sending.txt" "h265_sending.txt" "h266_sending.txt"
        "h264_long.txt" "h265_long.txt" "h266_long.txt" "memory_sending.txt";
    "dispatch": "dispatch_sending.txt" "memory_dispatch_sending.txt";
    "receiving":
        "h264_receiving.txt" "h265_receiving.txt" "h266_receiving.txt" "memory_receiving.txt";
    "dispatch-receiving": "dispatch_receiving.txt" "memory_dispatch_receiving.txt";
    "transmissions": "transmissions.txt" "memory_transmissions.txt";
    "cutting": "cutting.txt" "memory_cutting.txt";
    "header-words": "header_words.txt";
    "profiles": "profiles.txt";
);

/// What answers calls one after the other.
trait Answers {
    /// Makes a call, and says what comes of it.
    fn answer(&mut self, name: &str, words: &mut Words<'_>, said: &mut Said);
}

/// Names the line at which a walk panics.
struct At<'a>(&'a str);

impl Drop for At<'_> {
    fn drop(&mut self) {
        if std::thread::panicking() {
            eprintln!("at {}", self.0);
        }
    }
}

/// Makes the calls of a text, and compares each answer.
fn walk<A: Answers>(mut end: A, text: &str) {
    let text = text.replace("\\\n", "");
    for line in text.lines() {
        let _at = At(line);
        let Some(row) = Row::of(line) else {
            continue;
        };
        let (name, mut words) = row.words();
        let mut said = Said::default();
        end.answer(name, &mut words, &mut said);
        assert_eq!(words.next(), None, "a word too many");
        assert_eq!(said.words(), in_full(row.answer));
    }
}

/// Walks the text of a packetizer in each way: to a list, to memory of the caller, to a buffer, and by the one that is
/// chosen while the program runs.
fn walk_sending(text: &str) {
    for way in [
        sending::Way::List,
        sending::Way::Memory(0),
        sending::Way::Memory(12),
        sending::Way::Buffer(0),
        sending::Way::Buffer(12),
    ] {
        walk(Sender::new(way), text);
    }
    walk_dispatch(text);
}

/// Walks the text of a packetizer that is chosen while the program runs.
fn walk_dispatch(text: &str) {
    for way in [
        dispatch::Way::List,
        dispatch::Way::Buffer(0),
        dispatch::Way::Buffer(12),
    ] {
        walk(dispatch::Sender::new(way), text);
    }
}

/// Walks the text of a depacketizer in each way.
fn walk_receiving(text: &str) {
    for way in [receiving::Way::List, receiving::Way::Memory] {
        walk(Receiver::new(way), text);
    }
}

/// Walks each text of a walk.
fn walk_texts(name: &str, walk_text: fn(&str)) {
    for (_, _, text) in TEXTS.iter().filter(|(walk, ..)| *walk == name) {
        walk_text(text);
    }
}

/// Those of the program, but for sessions of lines, which aren't translated.
#[test]
fn texts() {
    let args = text!("args").lines();
    let walked = TEXTS.iter().map(|(walk, name, _)| format!("{walk}:{name}"));
    assert!(args.filter(|arg| !arg.starts_with("lines:")).eq(walked));
}

#[test]
fn sending() {
    walk_texts("sending", walk_sending);
}

#[test]
fn dispatch() {
    walk_texts("dispatch", walk_dispatch);
}

#[test]
fn receiving() {
    walk_texts("receiving", walk_receiving);
}

#[test]
fn dispatch_receiving() {
    walk_texts("dispatch-receiving", |text| {
        walk(dispatch::Receiver::new(), text)
    });
}

#[test]
fn transmissions() {
    walk_texts("transmissions", |text| walk(Transmissions, text));
}

#[test]
fn cutting() {
    walk_texts("cutting", |text| walk(Cutting, text));
}

#[test]
fn header_words() {
    walk_texts("header-words", |text| walk(HeaderWords, text));
}

/// Values as JSON too, where the crate has that.
#[test]
fn profiles() {
    walk_texts("profiles", |text| {
        let lines = text.lines();
        let lines = lines.filter(|line| cfg!(feature = "serde") || !profiles::is_of_json(line));
        walk(Profiles, &lines.collect::<Vec<_>>().join("\n"));
    });
}
