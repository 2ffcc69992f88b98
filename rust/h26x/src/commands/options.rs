//! The commands and their options: the table by which words are read, and of which the help, the manual page and the
//! completions are made.

/// The commands that work on streams and captures.
pub const COMMANDS: [&str; 3] = ["send", "receive", "inspect"];

/// A way to call the program.
pub struct Call {
    pub command: &'static str,
    /// The words behind the command, but for options.
    pub words: &'static str,
    pub about: &'static str,
}

const fn call(command: &'static str, words: &'static str, about: &'static str) -> Call {
    Call {
        command,
        words,
        about,
    }
}

/// Each command's first form is the one that it is told by where words are missing.
pub static CALLS: [Call; 7] = [
    call(
        "send",
        "IN.h264 OUT.pcap",
        "puts a stream, in Annex B form or behind lengths, in a capture",
    ),
    call(
        "receive",
        "IN.pcap OUT.h264",
        "writes the units of a stream in a capture; OUT.mp4: MP4",
    ),
    call(
        "inspect",
        "IN.pcap",
        "says what each packet is, and what is lost and refused",
    ),
    call(
        "send",
        "IN.h264 udp://HOST:PORT",
        "sends it live; receive and inspect take udp://:PORT",
    ),
    call(
        "help",
        "",
        "says this; COMMAND --help what is of one command",
    ),
    call("man", "", "the manual page, as in: h26x man | man -l -"),
    call("completion", "bash|zsh|fish", "completions for a shell"),
];

pub struct Opt {
    pub name: &'static str,
    /// What its value is called; a flag has none.
    pub value: Option<&'static str>,
    /// What its value may be, where there are few.
    pub values: &'static [&'static str],
    /// What it does, and in parentheses what is so without it.
    pub about: &'static str,
}

impl Opt {
    /// What stands for its value, or what that may be.
    pub fn shown_value(&self) -> Option<String> {
        let value = self.value?;
        Some(match self.values {
            [] => value.into(),
            values => values.join("|"),
        })
    }
}

/// What the value of an option is called that is a file.
pub const FILE: &str = "FILE";

/// Options of the same commands.
pub struct Group {
    pub commands: &'static [&'static str],
    pub options: &'static [Opt],
}

const fn flag(name: &'static str, about: &'static str) -> Opt {
    Opt {
        name,
        value: None,
        values: &[],
        about,
    }
}

const fn with(name: &'static str, value: &'static str, about: &'static str) -> Opt {
    Opt {
        name,
        value: Some(value),
        values: &[],
        about,
    }
}

const fn one_of(
    name: &'static str,
    value: &'static str,
    values: &'static [&'static str],
    about: &'static str,
) -> Opt {
    Opt {
        name,
        value: Some(value),
        values,
        about,
    }
}

pub static GROUPS: [Group; 5] = [
    Group {
        commands: &["send"],
        options: &[
            with("--mtu", "BYTES", "the longest RTP payload (1200)"),
            with(
                "--fps",
                "RATE",
                "pictures a second, as 25 or 30000/1001 (25); timestamps follow the order of the \
                 stream, which is the order of decoding",
            ),
            with("--payload-type", "N", "0 to 63 or 96 to 127 (96)"),
            with("--port", "N", "UDP port (5004)"),
            with("--ssrc", "N", "as 1234 or 0x4d2 (drawn anew each time)"),
            with(
                "--sequence",
                "N",
                "the first sequence number (drawn anew each time)",
            ),
            with(
                "--seed",
                "N",
                "what is drawn is drawn from this number: the same each time",
            ),
            with(
                "--sdp",
                FILE,
                "writes the session description of what is sent, as FFmpeg and GStreamer read it: \
                 payload type, profile and level, parameter sets",
            ),
            flag(
                "--lengths",
                "IN has its units behind lengths of four bytes, as in MP4 files (ISO/IEC \
                 14496-15; what receive --lengths writes), and not behind start codes",
            ),
            flag(
                "--as-str0m",
                "packets as str0m's packetize makes them (every unit is sent, those that fit one \
                 packet together): delimiters are left out, and of each kind of parameter sets the \
                 last is sent, before the next picture, where there are an SPS and a PPS",
            ),
            flag(
                "--no-delimiters",
                "access unit delimiters and filler data, of which a decoder needs nothing, are left out",
            ),
        ],
    },
    Group {
        commands: &["receive", "inspect"],
        options: &[
            with("--port", "N", "the stream that is sent to this port"),
            with("--payload-type", "N", "the stream of this payload type"),
            with(
                "--ssrc",
                "N",
                "the stream of this SSRC (of those that are asked for, and of the codec, the one \
                 in which most packets follow one another)",
            ),
            with(
                "--sdp",
                FILE,
                "the stream that this session description has: its codec, payload type, port, \
                 decoding order numbers, RTX and RED; receive writes its parameter sets before the \
                 first picture where the stream has none there",
            ),
            with(
                "--rtx",
                "N=PT",
                "packets of payload type N send those of PT again (RTX, RFC 4588), as 97=96: they \
                 are put in their places (those that look so)",
            ),
            with(
                "--red",
                "N",
                "packets of payload type N are redundant (RED, RFC 2198): the primary block is taken \
                 (those that look so)",
            ),
            flag(
                "--all",
                "all streams of H.264, H.265 and H.266 that are asked for, 64 at most; of receive \
                 OUT is a folder then, where each gets a file",
            ),
            with(
                "--window",
                "N",
                "a packet is waited for until one comes that is more than N ahead of it, 0 to \
                 1024 (32, and with RTX 1024); one that comes later is late, and is not taken",
            ),
            with(
                "--wait",
                "MS",
                "a packet is waited for so many milliseconds at most, by the times of the capture \
                 (by the window alone, and with RTX 1000)",
            ),
            with(
                "--begin-wait",
                "MS",
                "the first packet waits so many milliseconds at most, within --window and --wait, \
                 for those before it (0)",
            ),
            with(
                "--for",
                "SECONDS",
                "ends a live stream after this time (the first Ctrl-C ends it)",
            ),
            with(
                "--run-limit",
                "BYTES",
                "the longest unit in fragments (16777216); a longer one is left out",
            ),
        ],
    },
    Group {
        commands: &["receive"],
        options: &[
            flag(
                "--lengths",
                "units behind lengths of four bytes, as in MP4 files, and not behind start codes",
            ),
            flag(
                "--clean",
                "clean access units alone: those that a decoder shows without damage, from the \
                 first whole keyframe on",
            ),
        ],
    },
    Group {
        commands: &["inspect"],
        options: &[
            flag(
                "--summary",
                "no line for each packet; with --json the stream and the totals alone",
            ),
            with(
                "--html",
                FILE,
                "writes a page of pictures: packets, losses, access units, bit rate, jitter and \
                 the time between pictures; then there is no line for each packet",
            ),
            flag("--json", "an object of JSON in each line"),
            one_of(
                "--color",
                "WHEN",
                &["auto", "always", "never"],
                "colours (auto: on a terminal, where NO_COLOR isn't set)",
            ),
        ],
    },
    Group {
        commands: &COMMANDS,
        options: &[
            one_of(
                "--codec",
                "CODEC",
                &["h264", "h265", "h266"],
                "the codec (what the file's ending tells: .h264 .264, .h265 .265 .hevc, .h266 \
                 .266 .vvc; receive and inspect look at the packets where it tells nothing)",
            ),
            flag(
                "--donl",
                "packets bear decoding order numbers (sprop-max-don-diff over 0; H.265, H.266)",
            ),
            with(
                "--interface",
                "NAME",
                "the network interface of a live stream's multicast group (what routes say)",
            ),
            flag("--help", "says how the program is called"),
            flag("--version", "says which version it is"),
        ],
    },
];

/// The first form of a command.
pub fn call_of(command: &str) -> Option<&'static Call> {
    CALLS.iter().find(|it| it.command == command)
}

/// The commands without streams and captures.
pub fn others() -> impl Iterator<Item = &'static str> {
    let commands = CALLS.iter().map(|it| it.command);
    commands.filter(|it| !COMMANDS.contains(it))
}

/// Words as in `send, receive or inspect`.
pub fn one_of_these(words: &[&str]) -> String {
    match words {
        [first @ .., last] if !first.is_empty() => format!("{} or {last}", first.join(", ")),
        _ => words.concat(),
    }
}

/// The option of a command.
pub fn of_command(command: &str, name: &str) -> Option<&'static Opt> {
    let groups = GROUPS.iter().filter(|it| it.commands.contains(&command));
    let mut options = groups.flat_map(|it| it.options);
    options.find(|it| it.name == name)
}

/// The commands that have an option of this name.
pub fn commands_with(name: &str) -> Vec<&'static str> {
    let has = |command: &&&str| of_command(command, name).is_some();
    COMMANDS.iter().filter(has).copied().collect()
}
