//! What a capture's frames hold, so that what isn't read can be named.

use crate::captures::fragments::Fragments;
use crate::captures::link::Link;
use crate::streams::chooser::counted;
use std::cmp::Reverse;
use std::collections::BTreeMap;

/// How many kinds of other packets are named.
const NAMED: usize = 6;

#[derive(Default)]
pub struct Seen {
    pub frames: u64,
    pub udp: u64,
    /// Segments of TCP in connections of RTSP, and in others.
    pub rtsp: u64,
    pub tcp: u64,
    /// Segments of RTSP's connections of which the capture has only a front.
    pub cut: u64,
    /// Packets of other protocols by their numbers, and frames that hold no IP by their EtherTypes.
    protocols: BTreeMap<u8, u64>,
    ether_types: BTreeMap<u16, u64>,
}

impl Seen {
    pub fn other_protocol(&mut self, protocol: u8) {
        *self.protocols.entry(protocol).or_default() += 1;
    }

    pub fn other_ether_type(&mut self, ether_type: u16) {
        *self.ether_types.entry(ether_type).or_default() += 1;
    }

    /// What the frames hold, most first, and where no stream was found why there may be none.
    pub fn named(&self) -> String {
        let tcp = self.tcp + self.rtsp;
        let mut kinds = vec![
            (self.udp, "of UDP".to_string()),
            (tcp, "of TCP".to_string()),
        ];
        kinds.extend(
            self.protocols
                .iter()
                .map(|it| (*it.1, protocol_name(*it.0))),
        );
        let ether_types = self.ether_types.iter();
        kinds.extend(ether_types.map(|it| (*it.1, ether_type_name(*it.0))));
        kinds.retain(|it| it.0 > 0);
        kinds.sort_by_key(|it| Reverse(it.0));
        let named = kinds.iter().take(NAMED);
        let named: Vec<String> = named.map(|it| format!("{} {}", it.0, it.1)).collect();
        let frames = counted(self.frames, "frame");
        match named[..] {
            [] => format!("it has {frames}"),
            _ => format!("it has {frames}: {}", named.join(", ")),
        }
    }

    /// Whether all packets of IP are TCP's, and none of RTSP.
    pub fn is_tcp_alone(&self) -> bool {
        self.tcp > 0 && self.udp + self.rtsp == 0 && self.protocols.is_empty()
    }
}

/// What protocols over IP are called that are met often (www.iana.org/assignments/protocol-numbers).
fn protocol_name(protocol: u8) -> String {
    match protocol {
        1 => "of ICMP".into(),
        2 => "of IGMP".into(),
        50 => "of ESP, which is encrypted".into(),
        58 => "of ICMPv6".into(),
        132 => "of SCTP".into(),
        other => format!("of the IP protocol {other}"),
    }
}

fn ether_type_name(ether_type: u16) -> String {
    match ether_type {
        0..=0x05ff => "of IEEE 802.3".into(),
        0x0806 => "of ARP".into(),
        0x88cc => "of LLDP".into(),
        other => format!("of EtherType {other:#06x}"),
    }
}

/// What a capture has beside the packets that are looked at.
#[derive(Default)]
pub struct PassedOver {
    pub seen: Seen,
    /// IP packets of which fragments never came, and such with fragments that overlap.
    pub incomplete: u64,
    pub overlapping: u64,
    /// The link type of frames that aren't read.
    pub unread: Option<u32>,
    /// Why the capture ends before its end.
    pub end: Option<String>,
}

impl PassedOver {
    pub fn new(seen: Seen, fragments: &Fragments) -> Self {
        PassedOver {
            seen,
            incomplete: fragments.incomplete(),
            overlapping: fragments.overlapping(),
            ..PassedOver::default()
        }
    }

    /// Whether packets may be missing for what was passed over.
    pub fn is_whole(&self) -> bool {
        self.end.is_none() && self.incomplete + self.overlapping + self.seen.cut == 0
    }

    /// What of the capture was not read, a sentence each.
    pub fn told(&self) -> Vec<String> {
        let of = |count: u64, word: &str, what: &str| {
            (count > 0).then(|| format!("passed over: {} {what}", counted(count, word)))
        };
        let unread = self.unread.map(|number| {
            format!("passed over: frames of link type {number}, which h26x doesn't read")
        });
        let told = [
            of(
                self.incomplete,
                "IP packet",
                "of which the capture doesn't have all fragments",
            ),
            of(
                self.overlapping,
                "IP packet",
                "whose fragments overlap (RFC 5722)",
            ),
            of(
                self.seen.cut,
                "TCP segment",
                "with only a front in the capture (use a longer snap length)",
            ),
            unread,
            self.end.clone(),
        ];
        told.into_iter().flatten().collect()
    }

    /// Why there may be no stream.
    pub fn why_none(&self) -> String {
        let told = self.told();
        let also: String = told.iter().map(|it| format!("\n{it}")).collect();
        if let Some(number) = self.unread {
            return format!("; {}{also}", Link::unknown(number));
        }
        if self.seen.is_tcp_alone() {
            return format!(
                ": the capture has TCP only, and no packets of RTP that RTSP has in its \
                 connections{also}"
            );
        }
        format!(
            ": {}; no two packets of RTP follow one another in it{also}",
            self.seen.named()
        )
    }
}
