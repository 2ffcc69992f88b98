//! Says of each packet of a stream what it is, and then what is lost, refused and there.

use crate::captures::capture::Capture;
use crate::captures::packets::{Met, each_packet};
use crate::commands::arguments::Inspect;
use crate::commands::receive::{check_codec, codec_of};
use crate::errors::{Failure, INCOMPLETE};
use crate::output::html::Page;
use crate::output::report::Report;
use crate::output::standard;
use crate::streams::chooser::{Known, Streams, choose};
use crate::streams::reception::Reception;
use std::io::{self, IsTerminal};
use std::ops::ControlFlow;

/// Inspects, and answers the status to end with.
pub fn inspect(asked: &mut Inspect) -> Result<u8, Failure> {
    standard::check()?;
    let looking = &mut asked.looking;
    let mut capture = Capture::open(looking)?;
    if looking.choice.is_all && capture.is_pipe() {
        let what = "inspect --all reads a capture once for each stream, and a pipe is read once; \
            save it in a file first";
        return Err(Failure::of(&looking.input, what));
    }
    let streams = choose(&mut capture, looking)?;
    let page = asked.html.as_ref();
    let mut page = page
        .map(|it| Page::create(it, &asked.looking.input))
        .transpose()?;
    let mut status = 0;
    for (at, known) in streams.chosen().enumerate() {
        if at > 0 {
            capture.rewind()?;
        }
        let page = page.as_mut();
        status = status.max(inspect_stream(
            asked,
            &mut capture,
            &streams,
            (at, known),
            page,
        )?);
    }
    page.map_or(Ok(()), Page::finish)?;
    Ok(status)
}

/// Inspects the stream that is at this place among the chosen ones.
fn inspect_stream(
    asked: &Inspect,
    capture: &mut Capture,
    streams: &Streams,
    (place, known): (usize, &Known),
    page: Option<&mut Page>,
) -> Result<u8, Failure> {
    let looking = &asked.looking;
    let codec = codec_of(looking, known)?;
    let mut reception = Reception::new(codec, streams.session(&known.stream), looking, false);
    let mut report = Report::new(asked, codec);
    let printed = |error: io::Error| Failure::printing(&error);
    let beside = streams.named_beside(&known.stream);
    report.front(&known.stream, &beside).map_err(printed)?;
    if let Some(told) = known.two_senders() {
        report.two_senders(&told).map_err(printed)?;
    }
    let mut takers = streams.takers();
    let passed = each_packet(capture, what(asked), |met| {
        match met {
            Met::Packet(stream, _, packet) => {
                if takers.of(stream, packet).contains(&place) {
                    reception.take(packet, &mut |told| report.tell(&told).map_err(printed))?;
                }
            }
            Met::Pause => report.pass_on().map_err(printed)?,
        }
        Ok(ControlFlow::Continue(()))
    })?;
    let mut tally = reception.finish(&mut |told| report.tell(&told).map_err(printed))?;
    tally.guise = known.guise();
    tally.notes = streams.notes(&known.stream);
    if let Some(page) = page {
        report.draw(page, &known.stream, &tally, &passed);
    }
    report.end(&tally, &passed).map_err(printed)?;
    check_codec(looking, codec, known)?;
    let is_whole = tally.is_whole() && passed.is_whole();
    Ok(if is_whole { 0 } else { INCOMPLETE })
}

/// The name of the work, unless a bar would stand between the lines.
fn what(asked: &Inspect) -> Option<&'static str> {
    let has_bar = asked.form.is_summary() || !io::stdout().is_terminal();
    has_bar.then_some("inspecting")
}
