//! Builds packets and captures, byte by byte.

/// An RTP packet (RFC 3550, 5.1) of payload type 96, SSRC 0x01020304.
#[derive(Clone)]
pub struct Rtp {
    pub sequence: u16,
    pub timestamp: u32,
    pub marker: bool,
    pub payload: Vec<u8>,
}

impl Rtp {
    pub fn new(sequence: u16, timestamp: u32, marker: bool, payload: &[u8]) -> Self {
        Rtp {
            sequence,
            timestamp,
            marker,
            payload: payload.to_vec(),
        }
    }

    pub fn bytes(&self) -> Vec<u8> {
        let mut bytes = vec![0x80, 96 | u8::from(self.marker) << 7];
        bytes.extend(self.sequence.to_be_bytes());
        bytes.extend(self.timestamp.to_be_bytes());
        bytes.extend([1, 2, 3, 4]);
        bytes.extend(&self.payload);
        bytes
    }
}

/// A UDP datagram to port 5004, without a checksum (RFC 768).
pub fn udp(data: &[u8]) -> Vec<u8> {
    let len = (8 + data.len()) as u16;
    let mut datagram = vec![0x30, 0x39, 0x13, 0x8c];
    datagram.extend(len.to_be_bytes());
    datagram.extend([0, 0]);
    datagram.extend(data);
    datagram
}

/// An IPv4 packet with UDP, from 192.0.2.1 to 192.0.2.2, with these options and this flags-and-offset
/// word; its checksum is 0, which nobody looks at (RFC 791, 3.1).
pub fn ipv4(options: &[u8], fragment: u16, data: &[u8]) -> Vec<u8> {
    let header = 20 + options.len();
    let mut packet = vec![0x40 | (header / 4) as u8, 0];
    packet.extend(((header + data.len()) as u16).to_be_bytes());
    packet.extend([0, 7]);
    packet.extend(fragment.to_be_bytes());
    packet.extend([64, 17, 0, 0, 192, 0, 2, 1, 192, 0, 2, 2]);
    packet.extend(options);
    packet.extend(data);
    packet
}

/// An IPv6 packet from 2001:db8::1 to 2001:db8::2, whose first header behind its own is `next` (RFC
/// 8200, 3).
pub fn ipv6(next: u8, data: &[u8]) -> Vec<u8> {
    let mut packet = vec![0x60, 0, 0, 0];
    packet.extend((data.len() as u16).to_be_bytes());
    packet.extend([next, 64]);
    for last in [1, 2] {
        packet.extend([
            0x20, 0x01, 0x0d, 0xb8, 0, 0, 0, 0, 0, 0, 0, 0, 0, 0, 0, last,
        ]);
    }
    packet.extend(data);
    packet
}

/// An Ethernet frame with this EtherType, and what tags stand before it.
pub fn ethernet(tags: &[u8], ether_type: u16, packet: &[u8]) -> Vec<u8> {
    let mut frame = vec![2, 0, 0, 0, 0, 2, 2, 0, 0, 0, 0, 1];
    frame.extend(tags);
    frame.extend(ether_type.to_be_bytes());
    frame.extend(packet);
    frame
}

/// The usual frame of an RTP packet: Ethernet, IPv4, UDP.
pub fn frame(packet: &Rtp) -> Vec<u8> {
    ethernet(&[], 0x0800, &ipv4(&[], 0x4000, &udp(&packet.bytes())))
}

/// Numbers in the byte order of a file.
#[derive(Clone, Copy)]
pub enum Order {
    Big,
    Little,
}

impl Order {
    pub fn word(self, word: u32) -> [u8; 4] {
        match self {
            Order::Big => word.to_be_bytes(),
            Order::Little => word.to_le_bytes(),
        }
    }

    pub fn half(self, half: u16) -> [u8; 2] {
        match self {
            Order::Big => half.to_be_bytes(),
            Order::Little => half.to_le_bytes(),
        }
    }
}

/// A pcap file with this magic number and link type, whose frames are 1000 of its ticks apart.
pub fn pcap_of(order: Order, magic: u32, link: u32, frames: &[Vec<u8>]) -> Vec<u8> {
    let mut file = Vec::new();
    file.extend(order.word(magic));
    file.extend(order.half(2));
    file.extend(order.half(4));
    for word in [0, 0, 65535, link] {
        file.extend(order.word(word));
    }
    for (i, frame) in frames.iter().enumerate() {
        let len = frame.len() as u32;
        for word in [1_700_000_000, i as u32 * 1000, len, len] {
            file.extend(order.word(word));
        }
        file.extend(frame);
    }
    file
}

/// A pcap file of Ethernet frames, little-endian, in microseconds.
pub fn pcap(frames: &[Vec<u8>]) -> Vec<u8> {
    pcap_of(Order::Little, 0xa1b2_c3d4, 1, frames)
}

/// The pcap file of the usual frames of packets.
pub fn pcap_with(packets: &[Rtp]) -> Vec<u8> {
    let frames: Vec<Vec<u8>> = packets.iter().map(frame).collect();
    pcap(&frames)
}

/// Three packets of H.264 that follow one another: an SPS, an IDR slice in two fragments.
pub fn three_packets() -> Vec<Rtp> {
    vec![
        Rtp::new(65535, 9000, false, &[0x67, 0x42, 0xc0, 0x1f]),
        Rtp::new(0, 9000, false, &[0x7c, 0x85, 0x88, 1]),
        Rtp::new(1, 9000, true, &[0x7c, 0x45, 2, 3]),
    ]
}

/// The units of these three behind start codes (RFC 6184, 5.8: the unit's header has NRI of the
/// indicator and the type of the fragment's header).
pub const THREE_UNITS: [u8; 17] = [
    0, 0, 0, 1, 0x67, 0x42, 0xc0, 0x1f, 0, 0, 0, 1, 0x65, 0x88, 1, 2, 3,
];
