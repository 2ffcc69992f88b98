//! The layers below IP (LINKTYPE values: www.tcpdump.org/linktypes.html).

/// What frames begin with.
#[derive(Clone, Copy)]
pub enum Link {
    Ethernet,
    /// BSD's loopback: the address family in four bytes.
    Loopback,
    RawIp,
    LinuxCooked,
    LinuxCooked2,
}

/// What a frame holds behind its headers.
#[derive(Clone, Copy)]
pub enum Inside<'a> {
    Ip(&'a [u8]),
    /// Something else, of this EtherType.
    Other(u16),
    /// It ends within a header, or holds control packets of a tunnel.
    Nothing,
}

const IPV4: u16 = 0x0800;
const IPV6: u16 = 0x86dd;
/// An Ethernet frame (RFC 1701, 8: transparent bridging).
const BRIDGED: u16 = 0x6558;
/// The tags of 802.1Q and of 802.1ad, and the older one of QinQ.
const TAG: u16 = 0x8100;
const SERVICE_TAG: u16 = 0x88a8;
const OLD_SERVICE_TAG: u16 = 0x9100;
const MPLS: u16 = 0x8847;
const MPLS_UPSTREAM: u16 = 0x8848;
const PPPOE_SESSION: u16 = 0x8864;

impl Link {
    /// The layer of this number, or what to do about another.
    pub fn of(number: u32) -> Result<Self, String> {
        Ok(match number {
            0 | 108 => Link::Loopback,
            1 => Link::Ethernet,
            12 | 14 | 101 | 228 | 229 => Link::RawIp,
            113 => Link::LinuxCooked,
            276 => Link::LinuxCooked2,
            _ => return Err(Link::unknown(number)),
        })
    }

    pub fn unknown(number: u32) -> String {
        format!(
            "its frames are of link type {number}; h26x reads Ethernet (1), Linux cooked (113, \
             276), raw IP (101, 228, 229) and BSD loopback (0, 108). Capture on another \
             interface, or on `any`"
        )
    }

    /// What a frame holds.
    pub fn inside(self, frame: &[u8]) -> Inside<'_> {
        match self {
            Link::RawIp => Inside::Ip(frame),
            Link::Loopback => frame.get(4..).map_or(Inside::Nothing, Inside::Ip),
            Link::Ethernet => inside(BRIDGED, frame),
            Link::LinuxCooked => behind(frame, 14, 16),
            Link::LinuxCooked2 => behind(frame, 0, 20),
        }
    }
}

/// What stands behind a header with an EtherType at this place.
fn behind(frame: &[u8], ether_type: usize, header: usize) -> Inside<'_> {
    match (half(frame, ether_type), frame.get(header..)) {
        (Some(ether_type), Some(rest)) => inside(ether_type, rest),
        _ => Inside::Nothing,
    }
}

/// What bytes of this EtherType hold, behind tags, labels and frames within frames.
pub fn inside(mut ether_type: u16, mut rest: &[u8]) -> Inside<'_> {
    loop {
        let next = match ether_type {
            IPV4 | IPV6 => return Inside::Ip(rest),
            BRIDGED => ether_type_at(rest, 12),
            TAG | SERVICE_TAG | OLD_SERVICE_TAG => ether_type_at(rest, 2),
            PPPOE_SESSION => pppoe(rest),
            MPLS | MPLS_UPSTREAM => mpls(rest),
            other => return Inside::Other(other),
        };
        let Some(next) = next else {
            return Inside::Nothing;
        };
        (ether_type, rest) = next;
    }
}

pub fn half(bytes: &[u8], at: usize) -> Option<u16> {
    Some(u16::from_be_bytes(*bytes.get(at..)?.first_chunk()?))
}

/// The EtherType at a place, and what is behind it.
fn ether_type_at(bytes: &[u8], at: usize) -> Option<(u16, &[u8])> {
    Some((half(bytes, at)?, bytes.get(at + 2..)?))
}

/// What a packet of a PPPoE session holds (RFC 2516, 4; the protocols of PPP: RFC 1332, RFC 5072, RFC
/// 3032).
fn pppoe(bytes: &[u8]) -> Option<(u16, &[u8])> {
    let [0x11, 0, _, _, _, _, rest @ ..] = bytes else {
        return None;
    };
    let ether_type = match half(rest, 0)? {
        0x0021 => IPV4,
        0x0057 => IPV6,
        0x0281 => MPLS,
        _ => return None,
    };
    Some((ether_type, rest.get(2..)?))
}

/// What stands behind a stack of labels (RFC 3032, 2.1): IP, or an Ethernet frame behind a control
/// word (RFC 4448, 4.6).
fn mpls(mut bytes: &[u8]) -> Option<(u16, &[u8])> {
    loop {
        let ([_, _, last, _], rest) = bytes.split_first_chunk()?;
        bytes = rest;
        if last & 1 != 0 {
            break;
        }
    }
    match bytes.first()? >> 4 {
        4 => Some((IPV4, bytes)),
        6 => Some((IPV6, bytes)),
        0 => Some((BRIDGED, bytes.get(4..)?)),
        _ => None,
    }
}
