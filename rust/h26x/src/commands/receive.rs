//! Writes the units of streams in a capture.

use crate::captures::capture::Capture;
use crate::captures::packets::{Met, each_packet};
use crate::captures::seen::PassedOver;
use crate::commands::arguments::{Looking, Receive};
use crate::errors::{Failure, INCOMPLETE};
use crate::output::printing::say;
use crate::output::recording::Recording;
use crate::streams::chooser::{Known, Streams, choose};
use crate::streams::codecs::{name, word};
use crate::streams::guises::Guise;
use emupedestal::Codec;
use std::ops::ControlFlow;

/// Receives, and answers the status to end with.
pub fn receive(asked: &mut Receive) -> Result<u8, Failure> {
    let mut capture = Capture::open(&asked.looking)?;
    let streams = choose(&mut capture, &mut asked.looking)?;
    let mut recordings = begin(asked, &streams)?;
    let mut takers = streams.takers();
    let passed = each_packet(&mut capture, Some("receiving"), |met| {
        match met {
            Met::Packet(stream, _, packet) => {
                for at in takers.of(stream, packet) {
                    recordings[*at].take(packet)?;
                }
            }
            Met::Pause => recordings.iter_mut().try_for_each(Recording::pass_on)?,
        }
        Ok(ControlFlow::Continue(()))
    })?;
    finish(asked, recordings, &passed)
}

/// Begins with the streams that are to be written.
fn begin(asked: &Receive, streams: &Streams) -> Result<Vec<Recording>, Failure> {
    let mut recordings = Vec::new();
    for known in streams.chosen() {
        let codec = codec_of(&asked.looking, known)?;
        check_codec(&asked.looking, codec, known)?;
        let recording = Recording::new(asked, codec, known, streams)?;
        say(&format!("receiving {}", recording.named()));
        streams.notes(&known.stream).iter().for_each(|it| say(it));
        known.two_senders().iter().for_each(|it| say(it));
        recordings.push(recording);
    }
    let others = streams.named_others();
    if !others.is_empty() {
        say(&format!("passing over {others}"));
    }
    Ok(recordings)
}

/// Ends all of them. Where one of several fails it is told, and the others stand.
fn finish(asked: &Receive, recordings: Vec<Recording>, passed: &PassedOver) -> Result<u8, Failure> {
    let mut status = if passed.is_whole() { 0 } else { INCOMPLETE };
    let mut failed = Vec::new();
    let count = recordings.len();
    for recording in recordings {
        match recording.finish(asked) {
            Ok(of_it) => status = status.max(of_it),
            Err(failure) => failed.push(failure),
        }
    }
    for told in passed.told() {
        say(&told);
    }
    match failed.pop() {
        None => Ok(status),
        Some(failure) if failed.len() + 1 == count => {
            failed.iter().for_each(|it| say(&it.message));
            Err(failure)
        }
        Some(failure) => {
            failed.push(failure);
            failed.iter().for_each(|it| say(&it.message));
            Ok(INCOMPLETE)
        }
    }
}

/// The codec that is given, or as whose most packets of a stream look.
pub fn codec_of(looking: &Looking, known: &Known) -> Result<Codec, Failure> {
    let asked = looking.choice.codec;
    asked.or_else(|| known.likeness.likeliest()).ok_or_else(|| {
        let guess = match known.guise() {
            Some(guise) => format!("they look as {guise}"),
            None => "is it audio, or encrypted?".into(),
        };
        let what = format!(
            "most packets of {} look as those of no codec here ({guess}); choose another stream \
             (--port, --payload-type, --ssrc), or say which codec by --codec",
            known.stream
        );
        Failure::of(&looking.input, what)
    })
}

/// Refuses a stream that is rather of another codec, or where the user didn't say the codec of none.
pub fn check_codec(looking: &Looking, codec: Codec, known: &Known) -> Result<(), Failure> {
    let likeness = &known.likeness;
    let packets = likeness.all();
    let what = match likeness.other_than(codec) {
        _ if known.guise() == Some(Guise::Encrypted) && !looking.is_codec_option => format!(
            "the payloads of {} look as {}: {}",
            known.stream,
            Guise::Encrypted,
            Guise::Encrypted.advice()
        ),
        Some(other) => format!(
            "this stream is no {}: {} of its {packets} packets look as those of {} do; say \
             --codec {}",
            name(codec),
            likeness.usual(other),
            name(other),
            word(other)
        ),
        None if likeness.usual(codec) * 4 < packets && !looking.is_codec_given => format!(
            "{} of the {packets} packets of {} look as those of {} do; choose another stream \
             (--port, --payload-type, --ssrc; is this one audio, or encrypted?), or say --codec \
             where it is that one",
            likeness.usual(codec),
            known.stream,
            name(codec)
        ),
        None => return Ok(()),
    };
    Err(Failure::of(&looking.input, what))
}
