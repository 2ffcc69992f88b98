//! Puts the fragments of IP packets together (RFC 791, 3.2; RFC 8200, 4.5).
//!
//! A packet of which two fragments overlap is given up, with all that comes of it: so RFC 5722 has it
//! for IPv6, and Linux for IPv4 too. A fragment that comes again as it was is passed over. As many
//! packets are held as `MOST`, each for as long as its RFC says.

use crate::captures::ip::{Fragment, Payload};
use std::collections::{BTreeMap, VecDeque};
use std::net::IpAddr;

/// How many packets are put together at a time; the oldest is given up for one more.
const MOST: usize = 64;
/// How many fragments a packet may be in: 65535 bytes at the smallest MTU of IPv4, 68, are 1366.
const MOST_PIECES: usize = 2048;
/// The longest packet, in bytes.
const LONGEST: usize = 65535;
/// How long, in nanoseconds, the rest of a packet is waited for (RFC 791, 3.2; RFC 8200, 4.5).
const PATIENCE_IPV4: u64 = 15_000_000_000;
const PATIENCE_IPV6: u64 = 60_000_000_000;

/// Fragments with the same are of one packet. The protocol is IPv4's; of IPv6 it is 0.
type Key = (IpAddr, IpAddr, u8, u32);

#[derive(Default)]
pub struct Fragments {
    /// Those that are put together, the oldest first.
    open: VecDeque<Open>,
    /// Packets that never came to be whole, and those with fragments that overlap.
    incomplete: u64,
    overlapping: u64,
}

struct Open {
    key: Key,
    /// When its first fragment came.
    since: u64,
    /// What came of it, where it belongs, and where its pieces begin, each with its end.
    bytes: Vec<u8>,
    pieces: BTreeMap<usize, usize>,
    /// How many bytes came, and how many there are, once that is known.
    count: usize,
    len: Option<usize>,
    /// What the first fragment holds.
    protocol: Option<u8>,
    is_given_up: bool,
}

enum Added {
    Kept,
    Whole,
    Overlap,
}

impl Fragments {
    /// Adds a fragment. Answers the packet that is whole with it: what it holds, and its bytes.
    pub fn add(
        &mut self,
        payload: &Payload<'_>,
        fragment: &Fragment,
        time: u64,
    ) -> Option<(u8, Vec<u8>)> {
        self.give_up_old(time);
        let at = self.place_of(key(payload, fragment), time);
        let open = self.open.get_mut(at)?;
        if open.is_given_up || !is_sound(payload, fragment) {
            return None;
        }
        match open.add(payload, fragment) {
            Added::Kept => None,
            Added::Overlap => {
                self.overlapping += 1;
                open.give_up();
                None
            }
            Added::Whole => {
                let open = self.open.remove(at)?;
                Some((open.protocol?, open.bytes))
            }
        }
    }

    /// How many packets never came to be whole, up to the end of the capture.
    pub fn incomplete(&self) -> u64 {
        let waiting = self.open.iter().filter(|it| !it.is_given_up).count();
        self.incomplete + waiting as u64
    }

    pub fn overlapping(&self) -> u64 {
        self.overlapping
    }

    fn give_up_old(&mut self, time: u64) {
        let incomplete = &mut self.incomplete;
        self.open.retain(|open| {
            let is_waited_for = open.since.abs_diff(time) <= patience(&open.key);
            *incomplete += u64::from(!is_waited_for && !open.is_given_up);
            is_waited_for
        });
    }

    /// Where the packet of this key is; one that is new is put last.
    fn place_of(&mut self, key: Key, time: u64) -> usize {
        if let Some(at) = self.open.iter().position(|it| it.key == key) {
            return at;
        }
        if self.open.len() == MOST {
            let oldest = self.open.pop_front();
            self.incomplete += u64::from(oldest.is_some_and(|it| !it.is_given_up));
        }
        self.open.push_back(Open::new(key, time));
        self.open.len() - 1
    }
}

fn key(payload: &Payload<'_>, fragment: &Fragment) -> Key {
    let protocol = if payload.to.is_ipv4() {
        payload.protocol
    } else {
        0
    };
    (payload.from, payload.to, protocol, fragment.id)
}

fn patience(key: &Key) -> u64 {
    if key.0.is_ipv4() {
        PATIENCE_IPV4
    } else {
        PATIENCE_IPV6
    }
}

/// Whether a fragment was captured whole, and all but the last are of whole units of eight bytes.
fn is_sound(payload: &Payload<'_>, fragment: &Fragment) -> bool {
    let len = payload.bytes.len();
    payload.is_whole && (!fragment.has_more || (len > 0 && len % 8 == 0))
}

impl Open {
    fn new(key: Key, since: u64) -> Self {
        Open {
            key,
            since,
            bytes: Vec::new(),
            pieces: BTreeMap::new(),
            count: 0,
            len: None,
            protocol: None,
            is_given_up: false,
        }
    }

    fn give_up(&mut self) {
        (self.bytes, self.pieces) = (Vec::new(), BTreeMap::new());
        self.is_given_up = true;
    }

    fn add(&mut self, payload: &Payload<'_>, fragment: &Fragment) -> Added {
        let (begin, bytes) = (fragment.begin, payload.bytes);
        let end = begin + bytes.len();
        if self.pieces.get(&begin) == Some(&end) && self.bytes[begin..end] == *bytes {
            return Added::Kept;
        }
        if self.overlaps(begin, end) || !self.may_end(end, fragment.has_more) {
            return Added::Overlap;
        }
        if begin == 0 {
            self.protocol = Some(payload.protocol);
        }
        if !fragment.has_more {
            self.len = Some(end);
        }
        if self.bytes.len() < end {
            self.bytes.resize(end, 0);
        }
        self.bytes[begin..end].copy_from_slice(bytes);
        self.pieces.insert(begin, end);
        self.count += bytes.len();
        match self.len == Some(self.count) {
            true => Added::Whole,
            false => Added::Kept,
        }
    }

    /// Whether a piece has bytes of those that begin before it and behind.
    fn overlaps(&self, begin: usize, end: usize) -> bool {
        let before = self.pieces.range(..begin).next_back();
        let behind = self.pieces.range(begin..).next();
        before.is_some_and(|piece| *piece.1 > begin) || behind.is_some_and(|piece| *piece.0 < end)
    }

    /// Whether a piece may end here: no packet has two ends, nor bytes behind its end.
    fn may_end(&self, end: usize, has_more: bool) -> bool {
        let last = self.pieces.last_key_value().map_or(0, |piece| *piece.1);
        let is_behind = match self.len {
            Some(len) => end > len || (!has_more && end != len),
            None => !has_more && last > end,
        };
        !is_behind && end <= LONGEST && self.pieces.len() < MOST_PIECES
    }
}
