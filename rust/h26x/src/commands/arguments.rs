//! What the command line asks for.

use crate::captures::frames::LONGEST_PAYLOAD;
use crate::captures::rtp::RTCP;
use crate::commands::completion::{self, Made};
use crate::commands::options::{COMMANDS, one_of_these};
use crate::commands::words::{STANDARD, Words, before_command, unknown};
use crate::errors::Failure;
use crate::network::address::{is_address, to_send};
use crate::output::colors::Color;
use crate::output::printing::shown;
use crate::output::report::Form;
use crate::output::written::Written;
use crate::streams::chooser::Choice;
use crate::streams::codecs::of_path;
use crate::streams::containers::check_container;
use crate::streams::payload_types::PayloadTypes;
use crate::streams::seed::Drawn;
use crate::streams::session::{self, Described};
use emupedestal::Codec;
use std::ffi::OsString;
use std::net::SocketAddr;
use std::path::{Path, PathBuf};

/// The longest window, in packets.
pub const LONGEST_WINDOW: u16 = 1024;
/// The longest wait, in milliseconds: a day.
const MOST_WAIT: u64 = 86_400_000;
/// The longest time of a live stream, in seconds: a year.
const MOST_SECONDS: f64 = 31_536_000.0;

pub enum Command {
    Send(Send),
    Receive(Receive),
    Inspect(Inspect),
    Help,
    /// How one command is called.
    HelpOf(&'static str),
    Version,
    Manual,
    Completion(Made),
}

pub struct Send {
    pub codec: Codec,
    pub input: PathBuf,
    pub output: PathBuf,
    pub has_lengths: bool,
    pub mtu: u16,
    pub has_donl: bool,
    /// Whether packets are those of str0m, which sends no delimiters, and of sets the last ones.
    pub is_as_str0m: bool,
    /// Whether access unit delimiters and filler data are sent.
    pub has_delimiters: bool,
    pub payload_type: u8,
    pub port: u16,
    pub ssrc: u32,
    pub sequence: u16,
    /// So many pictures in so many seconds.
    pub frames: (u32, u32),
    /// Where the session description is written.
    pub description: Option<PathBuf>,
    /// Where it is sent, instead of into a capture.
    pub to: Option<SocketAddr>,
    pub interface: Option<String>,
}

/// How streams in a capture are looked at.
pub struct Looking {
    pub input: PathBuf,
    pub choice: Choice,
    /// Whether the user says the codec, and not only a file's ending; and whether by --codec, and not by a description.
    pub is_codec_given: bool,
    pub is_codec_option: bool,
    pub has_donl: bool,
    pub window: Option<u16>,
    /// For how many milliseconds a packet is waited for.
    pub wait: Option<u32>,
    /// For how many the first one waits for those before it.
    pub begin_wait: u32,
    pub run_limit: usize,
    /// Parameter sets that a session description has.
    pub sets: Vec<Vec<u8>>,
    /// Payload types of retransmissions and redundant payloads, which are undone.
    pub types: PayloadTypes,
    /// What is passed over of a session description, in words.
    pub passed_over: Option<String>,
    /// Others of its streams, one of which may be there instead.
    pub others: Vec<Described>,
    /// For how many seconds a live stream is looked at.
    pub seconds: Option<f64>,
    /// The interface on which a group is joined.
    pub interface: Option<String>,
}

pub struct Receive {
    pub looking: Looking,
    /// A file, or where all streams are received the folder of their files.
    pub output: PathBuf,
    pub written: Written,
    /// Whether clean access units alone are written.
    pub is_clean: bool,
}

pub struct Inspect {
    pub looking: Looking,
    /// Where a page of pictures is written.
    pub html: Option<PathBuf>,
    pub form: Form,
    pub color: Color,
}

pub fn command(words: Vec<OsString>) -> Result<Command, Failure> {
    let mut words = words.into_iter();
    let first = words.next().unwrap_or_default();
    let first = first.to_string_lossy();
    let alone = match &*first {
        "" => {
            let commands = one_of_these(&COMMANDS);
            return Err(Failure::usage(format!("say what to do: {commands}")));
        }
        "--version" | "-V" => Some(Command::Version),
        "--help" | "-h" | "help" => Some(Command::Help),
        "man" => Some(Command::Manual),
        "completion" => Some(completion(words.next())?),
        _ => None,
    };
    if let Some(alone) = alone {
        let option = words.find(|word| word.to_string_lossy().starts_with('-'));
        return match option {
            None => Ok(alone),
            Some(option) if option == "--help" => Ok(Command::Help),
            Some(option) => Err(unknown(&first, &option.to_string_lossy())),
        };
    }
    let Some(command) = COMMANDS.iter().find(|command| **command == first) else {
        return Err(match first.starts_with('-') {
            true => before_command(&first),
            false => Failure::usage(format!(
                "there is no command {first}: {}",
                one_of_these(&COMMANDS)
            )),
        });
    };
    let mut rest = Words::of(command, words)?;
    if rest.flag("--version") {
        return Ok(Command::Version);
    }
    if rest.flag("--help") {
        return Ok(Command::HelpOf(command));
    }
    match *command {
        "send" => rest.send().map(Command::Send),
        "receive" => rest.receive().map(Command::Receive),
        _ => rest.inspect().map(Command::Inspect),
    }
}

fn completion(shell: Option<OsString>) -> Result<Command, Failure> {
    let shell = shell.and_then(|it| it.into_string().ok());
    let made = shell.as_deref().and_then(completion::of_shell);
    made.map(Command::Completion).ok_or_else(|| {
        let shells = one_of_these(&completion::shells());
        Failure::usage(format!("say which shell: {shells}"))
    })
}

impl Looking {
    /// Looks at the first of the other streams of a session description that is there.
    pub fn choose_described(&mut self, is_there: impl Fn(u8) -> bool) {
        if self.choice.payload_type.is_some_and(&is_there) {
            return;
        }
        let others = std::mem::take(&mut self.others);
        if let Some(it) = others.into_iter().find(|it| is_there(it.payload_type)) {
            self.choice.payload_type = Some(it.payload_type);
            (self.has_donl, self.sets) = (it.has_donl, it.sets);
            self.passed_over = it.passed_over;
        }
    }
}

impl Words {
    fn send(&mut self) -> Result<Send, Failure> {
        let [input, output] = self.files()?;
        let codec = self.codec_of(&input)?;
        let has_lengths = self.flag("--lengths");
        let Some(codec) = codec else {
            check_container(&input, has_lengths)?;
            return Err(Failure::usage(format!(
                "{}: its ending tells no codec; say it by --codec h264, h265 or h266",
                shown(&input)
            )));
        };
        let has_donl = self.donl(Some(codec))?;
        // A fragment has a header of two or three bytes, a number in the first, and a byte of data.
        let least = match codec {
            Codec::H264 => 3,
            _ if has_donl => 6,
            _ => 4,
        };
        let to = is_address(&output).then(|| to_send(&output)).transpose()?;
        let drawn = Drawn::of(self.number("--seed", 0, u64::MAX)?);
        let is_as_str0m = self.flag("--as-str0m");
        Ok(Send {
            codec,
            has_donl,
            is_as_str0m,
            has_delimiters: self.has_delimiters(is_as_str0m)?,
            mtu: self
                .number("--mtu", least, LONGEST_PAYLOAD as u64)?
                .unwrap_or(1200) as u16,
            payload_type: self.payload_type()?.unwrap_or(96),
            port: self.port_to(to)?,
            ssrc: self.ssrc()?.unwrap_or(drawn.ssrc),
            sequence: self
                .number("--sequence", 0, 65535)?
                .map_or(drawn.sequence, |it| it as u16),
            frames: self.frames()?,
            description: self.description(&output)?,
            interface: self.interface(&output)?,
            to,
            has_lengths,
            input,
            output,
        })
    }

    /// Whether delimiters and filler data are sent, which str0m decides itself.
    fn has_delimiters(&mut self, is_as_str0m: bool) -> Result<bool, Failure> {
        match self.flag("--no-delimiters") {
            true if is_as_str0m => Err(Failure::usage(
                "--no-delimiters: --as-str0m has a rule of its own; leave one of them out",
            )),
            leaves_out => Ok(!leaves_out),
        }
    }

    /// The port that packets go to.
    fn port_to(&mut self, to: Option<SocketAddr>) -> Result<u16, Failure> {
        match (self.port()?, to) {
            (Some(_), Some(_)) => Err(Failure::usage(
                "--port: the address has the port; leave one of them out",
            )),
            (port, None) => Ok(port.unwrap_or(5004)),
            (None, Some(to)) => Ok(to.port()),
        }
    }

    /// Where a session description goes, which is no other file.
    fn description(&mut self, output: &Path) -> Result<Option<PathBuf>, Failure> {
        let path = self.value("--sdp").map(PathBuf::from);
        match path {
            Some(path) if path == output => Err(Failure::usage(format!(
                "--sdp {}: this is the capture too; name another file",
                shown(&path)
            ))),
            other => Ok(other),
        }
    }

    fn port(&mut self) -> Result<Option<u16>, Failure> {
        Ok(self.number("--port", 1, 65535)?.map(|it| it as u16))
    }

    fn ssrc(&mut self) -> Result<Option<u32>, Failure> {
        let number = self.number("--ssrc", 0, u32::MAX.into())?;
        Ok(number.map(|it| it as u32))
    }

    fn frames(&mut self) -> Result<(u32, u32), Failure> {
        let Some(value) = self.value("--fps") else {
            return Ok((25, 1));
        };
        let (pictures, seconds) = value.split_once('/').unwrap_or((&value, "1"));
        match (pictures.parse(), seconds.parse()) {
            (Ok(pictures @ 1..), Ok(seconds @ 1..)) => Ok((pictures, seconds)),
            _ => Err(Failure::usage(format!(
                "--fps {value}: give it as 25 or 30000/1001"
            ))),
        }
    }

    fn payload_type(&mut self) -> Result<Option<u8>, Failure> {
        let number = self.number("--payload-type", 0, 127)?.map(|it| it as u8);
        match number.filter(|it| RTCP.contains(it)) {
            Some(number) => Err(Failure::usage(format!(
                "--payload-type {number}: 64 to 95 can't be told from RTCP (RFC 5761, 4); give \
                 another"
            ))),
            None => Ok(number),
        }
    }

    fn donl(&mut self, codec: Option<Codec>) -> Result<bool, Failure> {
        let has_donl = self.flag("--donl");
        if has_donl && codec == Some(Codec::H264) {
            return Err(Failure::usage(
                "--donl: packets of H.264 bear no numbers here; leave it out",
            ));
        }
        Ok(has_donl)
    }

    /// The stream of a session description that is one of those that are asked for.
    fn described(
        &mut self,
        input: &Path,
        choice: &Choice,
    ) -> Result<Option<(Described, Vec<Described>)>, Failure> {
        match self.value("--sdp") {
            Some(_) if choice.is_all => Err(Failure::usage(
                "--all takes all streams, and --sdp describes one; leave one of them out",
            )),
            Some(path) if path == STANDARD && input == Path::new(STANDARD) => Err(Failure::usage(
                "--sdp -: standard input is the capture; name a file of the description",
            )),
            Some(path) => session::described(Path::new(&path), choice).map(Some),
            None => Ok(None),
        }
    }

    /// How streams of a codec are looked at, which is given, or told by the ending of a file.
    fn looking(
        &mut self,
        input: PathBuf,
        codec: Option<Codec>,
        ending: Option<Codec>,
    ) -> Result<Looking, Failure> {
        let is_all = self.flag("--all");
        let mut choice = Choice {
            port: self.port()?,
            payload_type: self.payload_type()?,
            ssrc: self.ssrc()?,
            codec: codec.or(ending),
            is_all,
        };
        let described = self.described(&input, &choice)?;
        let (mut described, mut others) = described.unzip();
        if let Some(it) = &described {
            choice.codec = Some(it.codec);
            choice.payload_type = Some(it.payload_type);
            choice.port = choice.port.or(it.port);
        }
        let has_donl = self.donl(choice.codec)?;
        for it in described.iter_mut().chain(others.iter_mut().flatten()) {
            it.has_donl |= has_donl;
        }
        let types = self.payload_types(described.as_ref())?;
        Ok(Looking {
            choice,
            is_codec_given: codec.is_some() || described.is_some(),
            is_codec_option: codec.is_some(),
            has_donl: described.as_ref().map_or(has_donl, |it| it.has_donl),
            window: (self.number("--window", 0, LONGEST_WINDOW.into())?).map(|it| it as u16),
            wait: self.number("--wait", 0, MOST_WAIT)?.map(|it| it as u32),
            types,
            begin_wait: self.number("--begin-wait", 0, MOST_WAIT)?.unwrap_or(0) as u32,
            run_limit: self.number("--run-limit", 1, 1 << 30)?.unwrap_or(16 << 20) as usize,
            passed_over: described.as_mut().and_then(|it| it.passed_over.take()),
            sets: described.map(|it| it.sets).unwrap_or_default(),
            others: others.unwrap_or_default(),
            seconds: self.seconds(&input)?,
            interface: self.interface(&input)?,
            input,
        })
    }

    /// The payload types of a session description, and those that are given.
    fn payload_types(&mut self, described: Option<&Described>) -> Result<PayloadTypes, Failure> {
        let mut types = described.map(|it| it.types.clone()).unwrap_or_default();
        if let Some(value) = self.value("--rtx") {
            if !types.read_rtx(&value) {
                return Err(Failure::usage(format!(
                    "--rtx {value}: give it as 97=96, where packets of payload type 97 send those of 96 again"
                )));
            }
        }
        if let Some(payload_type) = self.number("--red", 0, 127)? {
            types.add_red(payload_type as u8);
        }
        Ok(types)
    }

    /// How long a live stream is looked at.
    fn seconds(&mut self, input: &Path) -> Result<Option<f64>, Failure> {
        let Some(value) = self.value("--for") else {
            return Ok(None);
        };
        check_live("--for", input)?;
        match value.parse() {
            Ok(seconds) if (0.0..=MOST_SECONDS).contains(&seconds) => Ok(Some(seconds)),
            _ => Err(Failure::usage(format!(
                "--for {value}: give seconds, as 60 or 0.5, {MOST_SECONDS} at most"
            ))),
        }
    }

    fn interface(&mut self, live: &Path) -> Result<Option<String>, Failure> {
        let interface = self.value("--interface");
        if interface.is_some() {
            check_live("--interface", live)?;
        }
        Ok(interface)
    }

    fn receive(&mut self) -> Result<Receive, Failure> {
        let [input, output] = self.files()?;
        let codec = self.codec()?;
        let is_all = self.has("--all");
        let ending = match is_all {
            true => None,
            false => of_path(&output),
        };
        let looking = self.looking(input, codec, ending)?;
        let has_lengths = self.flag("--lengths");
        let written = match is_all {
            true => check_folder(&output).map(|()| Written::units(has_lengths))?,
            false => Written::of_path(&output, has_lengths)?,
        };
        Ok(Receive {
            looking,
            output,
            written,
            is_clean: self.flag("--clean"),
        })
    }

    fn inspect(&mut self) -> Result<Inspect, Failure> {
        let [input] = self.files()?;
        let codec = self.codec()?;
        let looking = self.looking(input, codec, None)?;
        let html = self.value("--html").map(PathBuf::from);
        if html.as_deref().is_some_and(|it| it == Path::new(STANDARD)) {
            return Err(Failure::usage(
                "--html -: standard output has the summary; name a file",
            ));
        }
        let form = match self.form() {
            Form::Lines if html.is_some() => Form::Summary,
            form => form,
        };
        Ok(Inspect {
            looking,
            html,
            form,
            color: self.color()?,
        })
    }

    fn form(&mut self) -> Form {
        match (self.flag("--summary"), self.flag("--json")) {
            (false, false) => Form::Lines,
            (true, false) => Form::Summary,
            (false, true) => Form::Json,
            (true, true) => Form::JsonSummary,
        }
    }

    fn color(&mut self) -> Result<Color, Failure> {
        let color = self.one_of("--color", Color::named)?;
        Ok(color.unwrap_or(Color::Auto))
    }
}

/// Refuses an option of live streams where there is none.
fn check_live(option: &str, path: &Path) -> Result<(), Failure> {
    match is_address(path) {
        true => Ok(()),
        false => Err(Failure::usage(format!(
            "{option} is of live streams, as udp://:5004, and {} is none",
            shown(path)
        ))),
    }
}

/// Refuses what is no folder, where each stream is to get a file.
fn check_folder(output: &Path) -> Result<(), Failure> {
    match output.is_dir() {
        true => Ok(()),
        false if output == Path::new(STANDARD) => Err(Failure::usage(
            "--all writes a file for each stream; name a folder",
        )),
        false => Err(Failure::of(
            output,
            "--all writes a file for each stream, and this is no folder; make it first",
        )),
    }
}
