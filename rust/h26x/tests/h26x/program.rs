//! The program, run in a folder of its own.

use std::path::{Path, PathBuf};
use std::process::{Command, Output};
use std::sync::OnceLock;
use std::sync::atomic::{AtomicU32, Ordering};
use std::{env, fs, process};

pub const PROGRAM: &str = env!("CARGO_BIN_EXE_h26x");

static FOLDERS: AtomicU32 = AtomicU32::new(0);

/// A folder that is removed at the end.
pub struct Folder(PathBuf);

impl Folder {
    pub fn new() -> Self {
        let number = FOLDERS.fetch_add(1, Ordering::Relaxed);
        let path = env::temp_dir().join(format!("h26x-test-{}-{number}", process::id()));
        fs::create_dir(&path).expect("a folder of its own");
        Folder(path)
    }

    pub fn path(&self, name: &str) -> PathBuf {
        self.0.join(name)
    }

    pub fn write(&self, name: &str, bytes: &[u8]) -> PathBuf {
        let path = self.path(name);
        fs::write(&path, bytes).expect("room");
        path
    }

    pub fn read(&self, name: &str) -> Vec<u8> {
        fs::read(self.path(name)).expect("a file that was written")
    }

    /// The names of all that is in it.
    pub fn names(&self) -> Vec<String> {
        let entries = fs::read_dir(&self.0).expect("the folder");
        let name = |entry: fs::DirEntry| entry.file_name().to_string_lossy().into_owned();
        let mut names: Vec<String> = entries
            .map(|entry| name(entry.expect("an entry")))
            .collect();
        names.sort();
        names
    }

    /// Runs the program there.
    pub fn run(&self, words: &[&str]) -> Ran {
        self.run_with(Command::new(PROGRAM).args(words))
    }

    /// Runs a line of shell there, in which `$0` is the program.
    pub fn shell(&self, line: &str) -> Ran {
        self.run_with(Command::new("sh").args(["-c", line, PROGRAM]))
    }

    fn run_with(&self, command: &mut Command) -> Ran {
        let output = command.current_dir(&self.0).output();
        Ran::of(output.expect("the program"))
    }
}

impl Drop for Folder {
    fn drop(&mut self) {
        let _ = fs::remove_dir_all(&self.0);
    }
}

/// What a run came to.
#[derive(Debug)]
pub struct Ran {
    pub status: i32,
    pub out: String,
    pub err: String,
}

impl Ran {
    fn of(output: Output) -> Self {
        Ran {
            status: output.status.code().expect("a status"),
            out: String::from_utf8(output.stdout).expect("text"),
            err: String::from_utf8(output.stderr).expect("text"),
        }
    }

    /// It ended with this status, and said these words.
    #[track_caller]
    pub fn says(&self, status: i32, words: &[&str]) {
        assert_eq!(self.status, status, "{self:#?}");
        for word in words {
            let is_said = self.out.contains(word) || self.err.contains(word);
            assert!(is_said, "{word:?} is not said: {self:#?}");
        }
    }
}

/// The folder of the small streams.
pub fn streams() -> PathBuf {
    Path::new(env!("CARGO_MANIFEST_DIR")).join("../../bindings/streams")
}

/// The small streams of each codec, by their endings. They are read and made once.
pub fn small_streams() -> [(&'static str, Vec<u8>); 3] {
    static STREAMS: OnceLock<[(&str, Vec<u8>); 3]> = OnceLock::new();
    let read = |name: &str| fs::read(streams().join(name)).expect("a small stream");
    let made = || {
        let made = Command::new(streams().join("make_h266")).output();
        made.expect("bash").stdout
    };
    let streams = STREAMS.get_or_init(|| {
        [
            ("h264", read("test_pictures.h264")),
            ("h265", read("test_pictures.h265")),
            ("h266", made()),
        ]
    });
    streams.clone()
}

/// The units of a stream between start codes; zeros before a start code belong to none.
pub fn cut(stream: &[u8]) -> Vec<Vec<u8>> {
    let mut units: Vec<Vec<u8>> = Vec::new();
    let mut zeros = 0;
    for &byte in stream {
        match (byte, units.last_mut()) {
            (0, _) => zeros += 1,
            (1, _) if zeros >= 2 => {
                units.push(Vec::new());
                zeros = 0;
            }
            (_, None) => panic!("a start code first"),
            (_, Some(unit)) => {
                unit.resize(unit.len() + zeros, 0);
                unit.push(byte);
                zeros = 0;
            }
        }
    }
    units
}
