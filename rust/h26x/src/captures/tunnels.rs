//! Tunnels over IP, whose packets hold packets.

use crate::captures::link::{Inside, half, inside};

/// Where VXLAN goes (RFC 7348, 5), and where Linux sent it before.
pub const VXLAN_PORTS: [u16; 2] = [4789, 8472];
/// The flag of VXLAN's header that says that it has a number.
const HAS_NUMBER: u8 = 0x08;
/// The flags of GRE's header that put four bytes more into it: a checksum, a key, a number.
const OPTIONAL: [u16; 3] = [0x8000, 0x2000, 0x1000];
/// The older one's routing, which nobody uses, and the version.
const UNKNOWN: u16 = 0x4007;

/// What a packet of GRE holds (RFC 2784, 2; RFC 2890, 2).
pub fn gre(packet: &[u8]) -> Inside<'_> {
    let (Some(flags), Some(ether_type)) = (half(packet, 0), half(packet, 2)) else {
        return Inside::Nothing;
    };
    let words = OPTIONAL.iter().filter(|flag| flags & **flag != 0).count();
    match packet.get(4 + 4 * words..) {
        Some(rest) if flags & UNKNOWN == 0 => inside(ether_type, rest),
        _ => Inside::Nothing,
    }
}

/// What a datagram of VXLAN holds (RFC 7348, 5); nothing where it is none.
pub fn vxlan(datagram: &[u8]) -> Option<Inside<'_>> {
    const BRIDGED: u16 = 0x6558;
    match datagram {
        [HAS_NUMBER, 0, 0, 0, _, _, _, 0, frame @ ..] => Some(inside(BRIDGED, frame)),
        _ => None,
    }
}
