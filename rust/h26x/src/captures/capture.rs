//! A capture of any of the file formats, frame by frame.

use crate::captures::input::Input;
use crate::captures::link::Link;
use crate::captures::pcap::Pcap;
use crate::captures::pcapng::Pcapng;
use crate::commands::arguments::Looking;
use crate::errors::Failure;
use crate::network::address::is_address;
use crate::network::live;
use crate::output::printing::shown;
use std::path::Path;

/// A record with more bytes than this holds no UDP datagram (65535 bytes at most), and is passed over.
pub const LONGEST_FRAME: u32 = 1 << 18;
/// No capture has a longer record, so where one says so the file is damaged.
pub const LONGEST_RECORD: u32 = 1 << 28;

/// A frame of a capture.
pub struct Frame<'a> {
    /// Nanoseconds since the epoch.
    pub time: u64,
    pub link: Link,
    pub bytes: &'a [u8],
}

enum Format {
    Pcap(Pcap),
    Pcapng(Pcapng),
}

impl Format {
    fn open(input: &mut Input) -> Result<Self, Failure> {
        let path = input.path().to_owned();
        let front = input.peek(4)?.to_vec();
        match front[..] {
            [..] if front.len() < 4 && input.is_broken() => {
                let what = "the capture is compressed by gzip, and is damaged; copy it again";
                Err(Failure::of(&path, what))
            }
            [] => {
                let what = "the capture is empty; capture again, and let it end by itself";
                Err(Failure::of(&path, what))
            }
            [0x0a, 0x0d, 0x0d, 0x0a] => Ok(Format::Pcapng(Pcapng::default())),
            _ => Ok(Format::Pcap(Pcap::open(input)?)),
        }
    }
}

pub struct Capture {
    input: Input,
    format: Format,
    /// Why nothing more can be read, where that is not the end of the file.
    fault: Option<Fault>,
}

impl Capture {
    /// Opens a file or a pipe, or listens for a live stream.
    pub fn open(looking: &Looking) -> Result<Self, Failure> {
        let path = &looking.input;
        let mut input = match is_address(path) {
            true => Input::of(path, live::listen(looking)?, None, None)?,
            false => Input::open(path)?,
        };
        Ok(Capture {
            format: Format::open(&mut input)?,
            input,
            fault: None,
        })
    }

    /// Begins again with the first frame. A pipe does so once.
    pub fn rewind(&mut self) -> Result<(), Failure> {
        self.input.rewind()?;
        self.format = Format::open(&mut self.input)?;
        self.fault = None;
        Ok(())
    }

    pub fn path(&self) -> &Path {
        self.input.path()
    }

    /// Whether it comes through a pipe, which can't be read twice.
    pub fn is_pipe(&self) -> bool {
        self.input.is_pipe()
    }

    /// Whether so much of a pipe was read as is kept, so that it can begin again.
    pub fn is_front_full(&self) -> bool {
        self.input.is_front_full()
    }

    /// Whether nobody has to be waited for, for the next frame.
    pub fn is_ready(&self) -> bool {
        !self.input.is_pipe()
            || match &self.format {
                Format::Pcap(it) => it.is_ready(self.input.buffered()),
                Format::Pcapng(it) => it.is_ready(self.input.buffered()),
            }
    }

    /// The next frame; nothing at the end of the file, or where it is cut off or damaged.
    pub fn next(&mut self) -> Result<Option<Frame<'_>>, Failure> {
        let frame = match &mut self.format {
            Format::Pcap(it) => it.next(&mut self.input)?,
            Format::Pcapng(it) => it.next(&mut self.input)?,
        };
        Ok(match frame {
            Next::Frame(frame) => Some(frame),
            Next::End => None,
            Next::Fault(fault) => {
                self.fault = Some(fault);
                None
            }
        })
    }

    /// Where in the file the record begins that was read last.
    pub fn position(&self) -> u64 {
        self.input.record()
    }

    /// How many bytes there are; nothing of a pipe.
    pub fn len(&self) -> Option<u64> {
        self.input.len()
    }

    /// The link type of packets that were passed over.
    pub fn unread(&self) -> Option<u32> {
        match &self.format {
            Format::Pcap(_) => None,
            Format::Pcapng(it) => it.unread,
        }
    }

    /// Says at which record nothing more could be read, and what to do.
    pub fn fault(&self) -> Option<String> {
        let (path, record) = (shown(self.input.path()), self.input.record());
        if self.input.is_broken() {
            return Some(format!(
                "{path}: the capture is compressed by gzip, and is cut off or damaged. What could \
                 be unpacked was read; copy the file again"
            ));
        }
        self.fault.map(|fault| match fault {
            Fault::Cut => format!(
                "{path}: the capture is cut off: its last record begins at byte {record} and is \
                 not whole. What is before it was read; copy the file again, or stop the capturing \
                 program before copying"
            ),
            Fault::Damaged(len) => format!(
                "{path}: the record at byte {record} says that it has {len} bytes, so the file is \
                 damaged. What is before it was read; capture or copy it again"
            ),
        })
    }
}

/// What is wrong with a record.
#[derive(Clone, Copy)]
pub enum Fault {
    /// The file ends inside it.
    Cut,
    /// It says that it has so many bytes, as none has.
    Damaged(u32),
}

/// What is next in a capture.
pub enum Next<'a> {
    Frame(Frame<'a>),
    End,
    /// What follows can't be told any more.
    Fault(Fault),
}
