//! IP and UDP (RFC 791, RFC 8200, RFC 768).

use crate::captures::link::half;
use std::net::IpAddr;

pub const IPV4_IN_IP: u8 = 4;
pub const TCP: u8 = 6;
pub const UDP: u8 = 17;
pub const IPV6_IN_IP: u8 = 41;
pub const GRE: u8 = 47;
const HOP_BY_HOP: u8 = 0;
const ROUTING: u8 = 43;
const FRAGMENT: u8 = 44;
const AUTHENTICATION: u8 = 51;
const DESTINATION: u8 = 60;

/// A datagram that may hold RTP, by where it comes from and where it goes.
pub struct Datagram<'a> {
    pub from: (IpAddr, u16),
    pub to: (IpAddr, u16),
    pub part: Part,
    pub bytes: &'a [u8],
}

/// How much of a datagram was captured.
#[derive(Default, Clone, Copy, PartialEq, Eq)]
pub enum Part {
    #[default]
    Whole,
    /// Its front.
    Cut,
}

/// A fragment's place in its packet (RFC 791, 3.1; RFC 8200, 4.5).
#[derive(Clone, Copy)]
pub struct Fragment {
    pub id: u32,
    /// How many bytes of the packet stand before it.
    pub begin: usize,
    pub has_more: bool,
}

/// What stands behind the headers of IP, as far as it was captured.
pub struct Payload<'a> {
    pub protocol: u8,
    pub from: IpAddr,
    pub to: IpAddr,
    /// Where it belongs, where it is not all of its packet.
    pub fragment: Option<Fragment>,
    /// Whether it was captured up to its end.
    pub is_whole: bool,
    pub bytes: &'a [u8],
}

/// What a packet of IP holds; nothing where its header makes no sense.
pub fn payload(packet: &[u8]) -> Option<Payload<'_>> {
    match packet.first()? >> 4 {
        4 => ipv4(packet),
        6 => ipv6(packet),
        _ => None,
    }
}

/// The bytes up to a length, behind which a frame may be padded; all of them where the length is 0, as
/// where the network card cuts what the system sends.
fn within(bytes: &[u8], len: usize) -> &[u8] {
    match len {
        0 => bytes,
        _ => bytes.get(..len).unwrap_or(bytes),
    }
}

fn ipv4(packet: &[u8]) -> Option<Payload<'_>> {
    let fixed: &[u8; 20] = packet.first_chunk()?;
    let header = usize::from(fixed[0] & 0x0f) * 4;
    if header < fixed.len() {
        return None;
    }
    let from: [u8; 4] = *fixed[12..].first_chunk()?;
    let to: [u8; 4] = *fixed[16..].first_chunk()?;
    let (len, place) = (usize::from(half(fixed, 2)?), half(fixed, 6)?);
    let fragment = Fragment {
        id: half(fixed, 4)?.into(),
        begin: usize::from(place & 0x1fff) * 8,
        has_more: place & 0x2000 != 0,
    };
    Some(Payload {
        protocol: fixed[9],
        from: from.into(),
        to: to.into(),
        fragment: (place & 0x3fff != 0).then_some(fragment),
        is_whole: len <= packet.len(),
        bytes: within(packet, len).get(header..)?,
    })
}

fn ipv6(packet: &[u8]) -> Option<Payload<'_>> {
    let from: [u8; 16] = *packet.get(8..)?.first_chunk()?;
    let to: [u8; 16] = *packet.get(24..)?.first_chunk()?;
    let (len, rest) = (usize::from(half(packet, 4)?), packet.get(40..)?);
    let mut payload = Payload {
        protocol: packet[6],
        from: from.into(),
        to: to.into(),
        fragment: None,
        is_whole: len <= rest.len(),
        bytes: within(rest, len),
    };
    payload.pass_headers()?;
    Some(payload)
}

impl Payload<'_> {
    /// Passes over the extension headers of IPv6 up to that of a fragment, behind which stands what was
    /// cut (RFC 8200, 4).
    pub fn pass_headers(&mut self) -> Option<()> {
        while self.fragment.is_none() {
            let bytes = self.bytes;
            let len = match self.protocol {
                HOP_BY_HOP | ROUTING | DESTINATION => (usize::from(*bytes.get(1)?) + 1) * 8,
                AUTHENTICATION => (usize::from(*bytes.get(1)?) + 2) * 4,
                FRAGMENT => {
                    self.fragment = fragment(bytes)?;
                    8
                }
                _ => break,
            };
            self.protocol = *bytes.first()?;
            self.bytes = bytes.get(len..)?;
        }
        Some(())
    }
}

/// What the header of a fragment of IPv6 says; of one that is the whole packet (RFC 6946) nothing.
fn fragment(header: &[u8]) -> Option<Option<Fragment>> {
    let place = half(header, 2)?;
    let id = u32::from_be_bytes(*header.get(4..)?.first_chunk()?);
    let fragment = Fragment {
        id,
        begin: usize::from(place & 0xfff8),
        has_more: place & 1 != 0,
    };
    Some((place & 0xfff9 != 0).then_some(fragment))
}

/// The datagram of UDP that an IP packet holds.
pub fn udp<'a>(payload: &Payload<'a>) -> Option<Datagram<'a>> {
    let bytes = payload.bytes;
    let (from, to) = (half(bytes, 0)?, half(bytes, 2)?);
    let len = usize::from(half(bytes, 4)?);
    let len = if len == 0 { bytes.len() } else { len };
    let part = match len > bytes.len() {
        false => Part::Whole,
        true => Part::Cut,
    };
    Some(Datagram {
        from: (payload.from, from),
        to: (payload.to, to),
        part,
        bytes: bytes.get(8..len.min(bytes.len()))?,
    })
}
