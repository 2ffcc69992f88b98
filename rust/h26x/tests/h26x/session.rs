//! Builds the packets of a session with retransmissions (RTX, RFC 4588) and redundant payloads (RED, RFC 2198), by the
//! figures of these RFCs, and has the program receive and inspect them.

use crate::build::{ethernet, ipv4, pcap, udp};
use crate::program::{Folder, Ran};

pub const MEDIA: u32 = 0x0102_0304;
pub const AGAIN: u32 = 0x0506_0708;

/// A packet of any payload type, SSRC and header extension (RFC 3550, 5.1).
#[derive(Clone)]
pub struct Packet {
    pub payload_type: u8,
    pub sequence: u16,
    pub ssrc: u32,
    /// The bytes of an extension of the form of one byte (RFC 8285, 4.2).
    pub extension: Vec<u8>,
    pub timestamp: u32,
    pub payload: Vec<u8>,
}

impl Packet {
    /// One of media: a slice in a picture of its own.
    pub fn media(number: u16) -> Self {
        let [high, low] = number.to_be_bytes();
        Packet {
            payload_type: 96,
            sequence: number.wrapping_add(65_530),
            ssrc: MEDIA,
            extension: Vec::new(),
            timestamp: u32::from(number) * 3000,
            payload: vec![0x41, 0x9a, high | 1, low | 1, 0x55],
        }
    }

    /// What sends it again: the original number stands before the payload (RFC 4588, 4).
    pub fn again(&self, sequence: u16) -> Self {
        let payload = [&self.sequence.to_be_bytes()[..], &self.payload].concat();
        Packet {
            payload_type: 97,
            sequence,
            ssrc: AGAIN,
            payload,
            ..self.clone()
        }
    }

    /// The same as a redundant payload, behind a block of FEC that is 90 ticks older (RFC 2198, 3).
    pub fn redundant(&self) -> Self {
        let header = [0x80 | 99, 0x01, 0x68, 2, self.payload_type, 0xaa, 0xbb];
        Packet {
            payload_type: 98,
            payload: [&header, &self.payload[..]].concat(),
            ..self.clone()
        }
    }

    /// The same as a redundant payload of one block.
    pub fn alone_in_red(&self) -> Self {
        Packet {
            payload_type: 98,
            payload: [&[self.payload_type], &self.payload[..]].concat(),
            ..self.clone()
        }
    }

    pub fn with_element(mut self, id: u8, name: &[u8]) -> Self {
        self.extension = vec![id << 4 | (name.len() - 1) as u8];
        self.extension.extend(name);
        self.extension
            .resize(self.extension.len().next_multiple_of(4), 0);
        self
    }

    pub fn frame(&self) -> Vec<u8> {
        ethernet(&[], 0x0800, &ipv4(&[], 0x4000, &udp(&self.bytes())))
    }

    pub fn bytes(&self) -> Vec<u8> {
        let has_extension = !self.extension.is_empty();
        let mut bytes = vec![
            0x80 | u8::from(has_extension) << 4,
            0x80 | self.payload_type,
        ];
        bytes.extend(self.sequence.to_be_bytes());
        bytes.extend(self.timestamp.to_be_bytes());
        bytes.extend(self.ssrc.to_be_bytes());
        if has_extension {
            bytes.extend([0xbe, 0xde, 0, (self.extension.len() / 4) as u8]);
            bytes.extend(&self.extension);
        }
        bytes.extend(&self.payload);
        bytes
    }
}

pub fn media(numbers: impl IntoIterator<Item = u16>) -> Vec<Packet> {
    numbers.into_iter().map(Packet::media).collect()
}

pub fn units(packets: &[Packet]) -> Vec<u8> {
    let units = packets
        .iter()
        .map(|it| [&[0, 0, 0, 1][..], &it.payload].concat());
    units.flatten().collect()
}

/// A session description of the payload types above, with these lines.
pub fn description(lines: &str) -> String {
    format!(
        "v=0\r\nm=video 41380 UDP/TLS/RTP/SAVPF 96 97 98 99\r\na=rtpmap:96 H264/90000\r\n\
         a=rtpmap:97 rtx/90000\r\na=fmtp:97 apt=96;rtx-time=200\r\na=rtpmap:98 red/90000\r\n\
         a=rtpmap:99 ulpfec/90000\r\n{lines}"
    )
}

/// Receives packets and inspects them; the units of `wanted` come out.
#[track_caller]
pub fn receives(came: &[Packet], sdp: &str, options: &[&str], wanted: &[Packet]) -> [Ran; 2] {
    let folder = Folder::new();
    folder.write(
        "in.pcap",
        &pcap(&came.iter().map(Packet::frame).collect::<Vec<_>>()),
    );
    folder.write("in.sdp", sdp.as_bytes());
    let options = match sdp {
        "" => options.to_vec(),
        _ => [&["--sdp", "in.sdp"], options].concat(),
    };
    let ran = folder.run(&[&["receive", "in.pcap", "out.h264"], &options[..]].concat());
    assert_eq!(folder.read("out.h264"), units(wanted), "{ran:#?}");
    [
        ran,
        folder.run(&[&["inspect", "in.pcap"], &options[..]].concat()),
    ]
}
