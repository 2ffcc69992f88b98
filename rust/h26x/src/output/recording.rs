//! A stream that is written into a file.

use crate::captures::packets::{Captured, Stream};
use crate::commands::arguments::{Looking, Receive};
use crate::errors::{Failure, INCOMPLETE};
use crate::output::file::Output;
use crate::output::printing::{say, shown};
use crate::output::writer::Writer;
use crate::streams::chooser::{Known, Streams, counted};
use crate::streams::codecs::{name, word};
use crate::streams::guises::Guise;
use crate::streams::reception::Reception;
use crate::streams::tally::Tally;
use emupedestal::Codec;
use std::path::PathBuf;

pub struct Recording {
    codec: Codec,
    stream: Stream,
    reception: Reception,
    writer: Writer,
    output: Output,
    path: PathBuf,
    guise: Option<Guise>,
    /// Whether the name of its file isn't the user's.
    is_of_many: bool,
}

impl Recording {
    pub fn new(
        asked: &Receive,
        codec: Codec,
        known: &Known,
        streams: &Streams,
    ) -> Result<Self, Failure> {
        let Looking { input, choice, .. } = &asked.looking;
        let path = match choice.is_all {
            true => asked.output.join(file_name(&known.stream, codec)),
            false => asked.output.clone(),
        };
        let session = streams.session(&known.stream);
        let has_lengths = asked.written.has_lengths();
        Ok(Recording {
            codec,
            stream: known.stream,
            reception: Reception::new(codec, session, &asked.looking, has_lengths),
            writer: Writer::new(asked, codec, &path),
            output: Output::create(&path, input)?,
            path,
            guise: known.guise(),
            is_of_many: choice.is_all,
        })
    }

    /// The stream, and where its name isn't the user's its file.
    pub fn named(&self) -> String {
        match self.is_of_many {
            true => format!(
                "{} as {} into {}",
                self.stream,
                name(self.codec),
                shown(&self.path)
            ),
            false => format!("{} as {}", self.stream, name(self.codec)),
        }
    }

    /// Takes a packet that is numbered with those of the stream, or sends one of these again.
    pub fn take(&mut self, packet: &Captured<'_>) -> Result<(), Failure> {
        let Recording {
            reception,
            writer,
            output,
            ..
        } = self;
        reception.take(packet, &mut |told| writer.write(told, output))
    }

    /// Writes what is there so far.
    pub fn pass_on(&mut self) -> Result<(), Failure> {
        match self.writer.may_go(&mut self.output.gathered) {
            true => self.output.write_out(),
            false => Ok(()),
        }
    }

    /// Gives the file its name, says what was counted, and answers the status to end with.
    pub fn finish(self, asked: &Receive) -> Result<u8, Failure> {
        let Recording {
            codec,
            reception,
            mut writer,
            mut output,
            path,
            guise,
            is_of_many,
            ..
        } = self;
        let mut tally = reception.finish(&mut |told| writer.write(told, &mut output))?;
        tally.guise = guise;
        check_taken(&asked.looking, codec, &tally)?;
        writer.finish(&mut output.gathered)?;
        let written = output.finish()?;
        for oddity in tally.oddities() {
            say(&oddity);
        }
        if let Some(told) = writer.told() {
            say(&told);
        }
        let of = if is_of_many {
            &path
        } else {
            &asked.looking.input
        };
        say(&format!(
            "{}: {}; {} written",
            shown(of),
            tally.totals(),
            counted(written, "byte")
        ));
        Ok(if tally.is_whole() { 0 } else { INCOMPLETE })
    }
}

/// What a stream's file is called among those of other streams: by its SSRC, its payload type, where it
/// goes, and its codec.
fn file_name(stream: &Stream, codec: Codec) -> String {
    let (address, port) = stream.to;
    let address = address.to_string().replace(':', "_");
    format!(
        "ssrc-{:#010x}-type-{}-to-{address}-port-{port}.{}",
        stream.ssrc,
        stream.payload_type,
        word(codec)
    )
}

/// Refuses a stream of which most packets were refused, or that is damaged by what it was taken for.
fn check_taken(looking: &Looking, codec: Codec, tally: &Tally) -> Result<(), Failure> {
    let what = match (tally.advice, tally.refusal_of_most()) {
        (Some(advice), _) => format!("{advice}; nothing is written"),
        (None, Some(reason)) => format!(
            "{} of {} packets are refused as {}, so nothing is written; is it another codec \
             (--codec), or do its packets bear numbers (--donl)? Most of them: {reason}",
            tally.refused,
            tally.packets,
            name(codec)
        ),
        _ if tally.parts * 2 > tally.packets => format!(
            "of {} of {} packets the capture has only a front, so nothing is written; capture \
             with a longer snap length (tcpdump -s 0)",
            tally.parts, tally.packets
        ),
        _ => return Ok(()),
    };
    Err(Failure::of(&looking.input, what))
}
