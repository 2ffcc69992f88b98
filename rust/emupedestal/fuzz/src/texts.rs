//! Streams in Annex B form or behind lengths, whole and read in pieces, what SDP says of profiles and levels, its
//! format parameters, and what streams say of these.
//!
//! A byte of [`Settings`], whose further bits say what the rest is.

use crate::input::{Input, Settings};
use crate::{profiles, sdp, streams};

pub fn run(data: &[u8]) {
    let mut input = Input::new(data);
    let settings = Settings::read(&mut input);
    match settings.more & 7 {
        4 => sdp::check(settings.codec, &mut input),
        5 => sdp::check_stream(settings.codec, &mut input),
        more => run_other(more & 3, settings, input),
    }
}

fn run_other(more: u8, settings: Settings, mut input: Input) {
    match more {
        0 => streams::check_units(settings.codec, input.rest()),
        1 => streams::check_access_units(settings.codec, input),
        2 => streams::check_lengths(input),
        _ => profiles::check(settings.codec, input),
    }
}
