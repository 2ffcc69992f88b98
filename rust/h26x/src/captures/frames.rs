//! Writes RTP packets as a capture: pcap with times in microseconds, Ethernet, IPv4 and UDP.

use crate::captures::rtp::{self, Rtp};
use std::net::Ipv4Addr;

/// The file's header: little-endian, version 2.4, whole frames, Ethernet.
const FILE_HEADER: [u32; 6] = [0xa1b2_c3d4, 4 << 16 | 2, 0, 0, 1 << 18, 1];
pub const RECORD: usize = 16;
/// Where a record has how long it is.
pub const RECORD_LEN: usize = 8;
/// Two addresses that nobody else has, and the EtherType of IPv4.
const ETHERNET: [u8; 14] = [2, 0, 0, 0, 0, 2, 2, 0, 0, 0, 0, 1, 0x08, 0x00];
/// IPv4 without options, not to be fragmented, with UDP, from 10.0.0.1 to 10.0.0.2 (RFC 791, 3.1).
const IPV4: [u8; 20] = [
    0x45, 0, 0, 0, 0, 0, 0x40, 0, 64, 17, 0, 0, 10, 0, 0, 1, 10, 0, 0, 2,
];
/// Where packets come from, and where they go.
pub const SOURCE: Ipv4Addr = Ipv4Addr::new(IPV4[12], IPV4[13], IPV4[14], IPV4[15]);
pub const DESTINATION: Ipv4Addr = Ipv4Addr::new(IPV4[16], IPV4[17], IPV4[18], IPV4[19]);
const UDP: usize = 8;
const IP_AND_BEHIND: usize = IPV4.len() + UDP + rtp::HEADER;

/// How many bytes stand before each payload.
pub const HEADROOM: usize = RECORD + ETHERNET.len() + IP_AND_BEHIND;
/// The longest payload that an IPv4 packet holds.
pub const LONGEST_PAYLOAD: usize = 65535 - IP_AND_BEHIND;
/// Where the byte with the marker stands in a record.
pub const MARKER: usize = HEADROOM - rtp::HEADER + 1;

pub fn file_header() -> impl Iterator<Item = u8> {
    FILE_HEADER.iter().flat_map(|word| word.to_le_bytes())
}

/// Writes all that stands before a payload, into a record that has room for it in front.
pub fn write_headers(record: &mut [u8], micros: u64, port: u16, packet: &Rtp<'_>) {
    let len = record.len() - RECORD;
    let time = [(micros / 1_000_000) as u32, (micros % 1_000_000) as u32];
    let mut at = 0;
    let mut put = |bytes: &[u8]| {
        record[at..at + bytes.len()].copy_from_slice(bytes);
        at += bytes.len();
    };
    for word in [time[0], time[1], len as u32, len as u32] {
        put(&word.to_le_bytes());
    }
    put(&ETHERNET);
    put(&ipv4((len - ETHERNET.len()) as u16));
    // Without a checksum, which IPv4 allows (RFC 768).
    for half in [port, port, (len - ETHERNET.len() - IPV4.len()) as u16, 0] {
        put(&half.to_be_bytes());
    }
    put(&rtp::header(packet));
}

/// The header of an IPv4 packet of this length, with its checksum (RFC 791, 3.1).
fn ipv4(len: u16) -> [u8; 20] {
    let mut header = IPV4;
    header[2..4].copy_from_slice(&len.to_be_bytes());
    let halves = header
        .chunks(2)
        .map(|half| u32::from(half[0]) << 8 | u32::from(half[1]));
    let sum: u32 = halves.sum();
    let folded = (sum & 0xffff) + (sum >> 16);
    header[10..12].copy_from_slice(&(!folded as u16).to_be_bytes());
    header
}
