//! The payload types of the sessions of a capture: those that are said, or where nothing is those that packets look as.

use crate::captures::packets::Stream;
use crate::streams::chooser::{Choice, Known};
use crate::streams::guises::Guise;
use crate::streams::payload_types::PayloadTypes;
use emupedestal::Codec;
use std::collections::HashMap;
use std::net::IpAddr;

#[derive(Default, Clone)]
pub struct Types {
    said: PayloadTypes,
    /// By where packets go.
    guessed: HashMap<(IpAddr, u16), PayloadTypes>,
}

impl Types {
    pub fn said(types: &PayloadTypes) -> Self {
        Types {
            said: types.clone(),
            guessed: HashMap::new(),
        }
    }

    /// Those of packets that go there.
    pub fn at(&self, to: (IpAddr, u16)) -> &PayloadTypes {
        self.guessed.get(&to).unwrap_or(&self.said)
    }

    /// Guesses them; whether any are guessed. Of encrypted packets nothing can be undone. Else those that are
    /// said hold, and a stream that is asked for is taken as it is.
    pub fn guess(&mut self, known: &[Known], choice: &Choice) -> bool {
        let is_plain = self.said.are_plain();
        for it in known {
            let Stream {
                payload_type,
                ssrc,
                to,
            } = it.stream;
            match it.guise() {
                Some(Guise::Encrypted) if !is_plain => {
                    self.guessed.insert(to, PayloadTypes::default());
                }
                _ if !is_plain || choice.payload_type == Some(payload_type) => {}
                Some(Guise::Redundant(_)) => self.of(to).add_red(payload_type),
                Some(Guise::Retransmission(codec)) if choice.ssrc != Some(ssrc) => {
                    if let Some(original) = original(known, it, codec) {
                        self.of(to).add_rtx(payload_type, original);
                    }
                }
                _ => {}
            }
        }
        !self.guessed.is_empty()
    }

    fn of(&mut self, to: (IpAddr, u16)) -> &mut PayloadTypes {
        self.guessed.entry(to).or_default()
    }

    /// Says what is guessed of packets that go there.
    pub fn told(&self, to: (IpAddr, u16)) -> Option<String> {
        let types = self.guessed.get(&to).filter(|it| !it.are_plain())?;
        Some(format!(
            "guessed, by what its packets look like: {}; else give the session description (--sdp)",
            types.in_options()
        ))
    }
}

/// The payload type that a stream sends again: that of most packets of the codec that go there.
fn original(known: &[Known], again: &Known, codec: Codec) -> Option<u8> {
    let is_it = |it: &&Known| {
        it.stream.to == again.stream.to
            && it.stream.payload_type != again.stream.payload_type
            && it.guise().is_none()
            && it.likeness.is_likely(codec)
    };
    let most = known.iter().filter(is_it).max_by_key(|it| it.packets);
    most.map(|it| it.stream.payload_type)
}
