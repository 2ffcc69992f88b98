//! Payloads through both endpoints, lists of packets, and what is sent again.

use super::Answers;
use super::row::{Words, bytes_of, number, number_of};
use super::said::Said;
use super::sending::size;
use super::settings::Settings;
use crate::transmission::{Carried, Repeated, again, carry, take_all};
use crate::{CodecExtra, PacketError};

/// Each row is of fresh endpoints.
pub(super) struct Transmissions;

impl Answers for Transmissions {
    fn answer(&mut self, name: &str, words: &mut Words<'_>, said: &mut Said) {
        match name {
            "carry" => carry_calls(words, said),
            "take-all" => take_packets(words, said),
            "again" => send_again(words, said),
            _ => panic!("no call {name}"),
        }
    }
}

/// A call: a limit, and a payload behind a colon.
fn call_of(word: &str) -> (usize, Vec<u8>) {
    let (limit, payload) = word.split_once(':').expect("a call has a limit");
    (number_of(limit), bytes_of(payload))
}

/// Says the packets, which calls were made, what was written and what is told; of a refusal its name in the place of
/// packets and calls.
fn carry_calls(words: &mut Words<'_>, said: &mut Said) {
    let (settings, calls) = Settings::with_words(words);
    let calls: Vec<_> = calls.into_iter().map(call_of).collect();
    let (mut packetizer, mut depacketizer) = (settings.packetizer(), settings.depacketizer());
    let (mut out, mut extra) = (Vec::new(), CodecExtra::None);
    let carried = carry(
        &mut packetizer,
        &mut depacketizer,
        &calls,
        &mut out,
        &mut extra,
    );
    say_carried(said, carried);
    said.word("out");
    said.bytes(&out);
    said.told(settings.codec, extra);
}

fn say_carried(said: &mut Said, carried: Result<Carried, PacketError>) {
    let carried = match carried {
        Ok(carried) => carried,
        Err(error) => return said.refused(error),
    };
    said.packets(&carried.packets);
    said.word("made");
    for is_made in carried.made {
        said.fact(is_made);
    }
}

/// Says what becomes of each packet, what was written and what is told.
fn take_packets(words: &mut Words<'_>, said: &mut Said) {
    let (settings, packets) = Settings::with_packets(words);
    let mut depacketizer = settings.depacketizer();
    let (mut out, mut extra) = (Vec::new(), CodecExtra::None);
    let outcomes = take_all(&mut depacketizer, &packets, &mut out, &mut extra);
    for outcome in outcomes {
        said.outcome(outcome);
    }
    said.word("out");
    said.bytes(&out);
    said.told(settings.codec, extra);
}

/// Says the packets of payloads, what is written of these, and the packets of that.
fn send_again(words: &mut Words<'_>, said: &mut Said) {
    let (largest, limit) = (size(words), number(words));
    let (settings, payloads) = Settings::with_packets(words);
    let codec = settings.codec.expect("a codec");
    match again(codec, settings.has_donl, largest, limit, &payloads) {
        Ok(repeated) => say_repeated(said, &repeated),
        Err(error) => said.refused(error),
    }
}

fn say_repeated(said: &mut Said, repeated: &Repeated) {
    said.packets(&repeated.first);
    said.word("written");
    said.bytes(&repeated.written);
    said.word("second");
    said.packets(&repeated.second);
}
