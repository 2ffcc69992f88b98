//! What a stream is whose payloads aren't those of a codec as they are: redundant payloads (RED, RFC 2198),
//! retransmissions (RTX, RFC 4588) or encrypted (SRTP, RFC 3711), told by what they look like.

use crate::streams::codecs::{CODECS, Likeness, is_usual, name};
use emupedestal::Codec;
use std::fmt;

/// So many packets of a stream are looked at, and so many tell what it is.
const MOST: u64 = 4096;
const TELLING: u64 = 16;
const TELLING_RANDOM: u64 = 64;
/// Retransmissions that follow one another are of packets that are no further apart.
const NEAR: u16 = 256;
/// Payload types that a session gives out, of which RED has one before its last block.
const DYNAMIC: usize = 96;
/// What a FU-A of H.264 begins with; its second byte looks as a header.
const FRAGMENT: usize = 0x7c;

#[derive(Clone, Copy, PartialEq, Eq, Debug)]
pub enum Guise {
    Redundant(Codec),
    Retransmission(Codec),
    Encrypted,
}

impl fmt::Display for Guise {
    fn fmt(&self, f: &mut fmt::Formatter<'_>) -> fmt::Result {
        match self {
            Guise::Redundant(codec) => {
                write!(f, "redundant payloads (RED, RFC 2198) of {}", name(*codec))
            }
            Guise::Retransmission(codec) => {
                write!(f, "retransmissions (RTX, RFC 4588) of {}", name(*codec))
            }
            Guise::Encrypted => f.write_str("random bytes, as encrypted ones do (SRTP, RFC 3711)"),
        }
    }
}

impl Guise {
    /// What to do.
    pub fn advice(self) -> &'static str {
        match self {
            Guise::Redundant(_) => "say --red, or give the session description (--sdp)",
            Guise::Retransmission(_) => "say --rtx, or give the session description (--sdp)",
            Guise::Encrypted => "have them decrypted first",
        }
    }
}

/// What the payloads of a stream look like.
pub struct Looks {
    packets: u64,
    /// How often each first byte came, and behind one that may be a payload type what is usual as
    /// each codec's.
    firsts: Box<[u16; 256]>,
    behind_type: Box<[[u16; 3]; 32]>,
    behind_two: Likeness,
    /// The number in the first two bytes, how often it changed, and how often to one little higher.
    number: Option<u16>,
    changes: u64,
    rises: u64,
}

impl Default for Looks {
    fn default() -> Self {
        Looks {
            packets: 0,
            firsts: Box::new([0; 256]),
            behind_type: Box::default(),
            behind_two: Likeness::default(),
            number: None,
            changes: 0,
            rises: 0,
        }
    }
}

impl Looks {
    pub fn add(&mut self, payload: &[u8]) {
        let [first, second, ..] = *payload else {
            return;
        };
        if self.packets == MOST {
            return;
        }
        self.packets += 1;
        self.firsts[usize::from(first)] += 1;
        self.add_behind(first.into(), &payload[1..]);
        self.behind_two.add(&payload[2..]);
        let number = u16::from_be_bytes([first, second]);
        if let Some(before) = self.number.replace(number) {
            let ahead = number.wrapping_sub(before);
            self.changes += u64::from(ahead != 0);
            self.rises += u64::from((1..=NEAR).contains(&ahead));
        }
    }

    fn add_behind(&mut self, first: usize, behind: &[u8]) {
        let place = first.checked_sub(DYNAMIC);
        if let Some(usual) = place.and_then(|at| self.behind_type.get_mut(at)) {
            for (codec, usual) in CODECS.into_iter().zip(usual) {
                *usual += u16::from(is_usual(codec, behind));
            }
        }
    }

    /// What it is, where `own` tells what the payloads as they are look like.
    pub fn guise(&self, own: &Likeness) -> Option<Guise> {
        if self.packets < TELLING {
            return None;
        }
        if self.changes >= TELLING && self.rises * 4 >= self.changes * 3 {
            return self.behind_two.likeliest().map(Guise::Retransmission);
        }
        match own.likeliest() {
            None | Some(Codec::H264) => {}
            // Their headers of two bytes are no chance.
            Some(_) => return None,
        }
        let redundant = self.redundant().map(Guise::Redundant);
        let is_random = own.likeliest().is_none() && self.is_random();
        redundant.or(is_random.then_some(Guise::Encrypted))
    }

    /// The codec of most payloads behind the payload type that most begin with.
    fn redundant(&self) -> Option<Codec> {
        let (first, count) = (0_usize..).zip(self.firsts.iter()).max_by_key(|it| it.1)?;
        let usual = self.behind_type.get(first.checked_sub(DYNAMIC)?)?;
        let (codec, usual) = CODECS.into_iter().zip(usual).rev().max_by_key(|it| it.1)?;
        let is_most =
            u64::from(*count) * 2 >= self.packets && u32::from(*usual) * 4 >= u32::from(*count) * 3;
        (is_most && first != FRAGMENT).then_some(codec)
    }

    /// Whether first bytes are as many as of random ones: of 256 each is missing with a chance of
    /// (255/256)^n.
    fn is_random(&self) -> bool {
        let there = self.firsts.iter().filter(|it| **it > 0).count() as f64;
        let wanted = 256.0 * (1.0 - (255.0_f64 / 256.0).powi(self.packets as i32));
        self.packets >= TELLING_RANDOM && there > 0.8 * wanted
    }
}
