// Made from crates/h26x_depacketizer/src/access_unit.rt by tools/to-rust.

//! Where an access unit begins and ends among packets with headers of two bytes (RFC 7798, 4.4.3;
//! RFC 9328, 4.3.3; str0m's rule).

/// Whether a packet, a fragment or not, may be the first of an access unit: it has two bytes or
/// more and, where it is a fragment with F clear, its S bit is set (RFC 7798, 4.4.3; RFC 9328,
/// 4.3.3).
pub fn may_begin_access_unit(is_fragment: bool, packet: &[u8]) -> bool {
    if packet.len() < 2 {
        return false;
    }
    let is_forbidden = packet[0] >> 7 != 0;
    is_forbidden || !is_fragment || packet.len() > 2 && packet[2] >> 7 != 0
}

/// Whether a packet is the last of an access unit: a fragment where its E bit is set (RFC 7798,
/// 4.4.3; RFC 9328, 4.3.3), another where its RTP packet bears the marker bit; none of under two
/// bytes.
pub fn ends_access_unit(is_fragment: bool, marker: bool, packet: &[u8]) -> bool {
    if packet.len() < 2 {
        return false;
    }
    if is_fragment {
        packet.len() > 2 && packet[2] >> 6 & 1 != 0
    } else {
        marker
    }
}
