//! Every payload and every packet of a few bytes.

use crate::answers::Codec;
use crate::case::{Case, Step};

/// The limits at which every payload is sent.
pub const LIMITS: std::ops::RangeInclusive<usize> = 0..=12;

/// Bytes over an alphabet, one length after the other.
pub struct Words {
    alphabet: Vec<u8>,
    most: usize,
}

impl Words {
    /// Payloads: `00`, `01`, `02`, and a header byte of each kind of unit.
    pub fn payloads(codec: Codec, most: usize) -> Self {
        let headers: &[u8] = match codec {
            // Access unit delimiter, SPS, PPS, a slice.
            Codec::H264 => &[0x09, 0x67, 0x68, 0x65],
            // Access unit delimiter, VPS, SPS, PPS, a slice: the first byte.
            Codec::H265 => &[0x46, 0x40, 0x42, 0x44, 0x26],
            // The same: the second byte.
            Codec::H266 => &[0xa1, 0x71, 0x79, 0x81, 0x39],
        };
        Words {
            alphabet: [&[0, 1, 2], headers].concat(),
            most,
        }
    }

    /// Packets: is_avc, header bytes of each kind of packet, and bytes with S, E and a key type.
    pub fn packets(codec: Codec, most: usize) -> Self {
        let alphabet: &[u8] = match codec {
            Codec::H264 => &[0, 1, 2, 5, 0x65, 0x78, 0x7c, 0x9d, 0x85, 0x45, 0xc1, 0x41],
            Codec::H265 => &[0, 1, 2, 3, 0x26, 0x60, 0x62, 0x64, 0x93, 0x53, 0xd3, 0x08],
            Codec::H266 => &[0, 1, 2, 3, 0x39, 0x80, 0xe1, 0xe9, 0x87, 0x47, 0xc7, 0x08],
        };
        Words {
            alphabet: alphabet.to_vec(),
            most,
        }
    }

    /// How many there are.
    pub fn count(&self) -> u64 {
        let letters = self.alphabet.len() as u64;
        (0..=self.most as u32).map(|len| letters.pow(len)).sum()
    }

    /// The one with this number.
    pub fn word(&self, mut number: u64) -> Vec<u8> {
        let letters = self.alphabet.len() as u64;
        let (mut len, mut of_len) = (0, 1);
        while number >= of_len {
            number -= of_len;
            of_len *= letters;
            len += 1;
        }
        let mut word = vec![0; len];
        for place in word.iter_mut().rev() {
            *place = self.alphabet[(number % letters) as usize];
            number /= letters;
        }
        word
    }
}

/// A payload at each limit, with DONL or without; or each time behind an SPS and a PPS that wait.
pub fn payload_case(codec: Codec, has_donl: bool, sets_wait: bool, payload: &[u8]) -> Case {
    let sets: &[u8] = match codec {
        Codec::H264 => &[0, 0, 1, 0x67, 9, 0, 0, 1, 0x68],
        Codec::H265 => &[0, 0, 1, 0x42, 1, 9, 0, 0, 1, 0x44, 1],
        Codec::H266 => &[0, 0, 1, 0, 0x79, 9, 0, 0, 1, 0, 0x81],
    };
    let mut steps = Vec::from_iter(has_donl.then_some(Step::Donl(true)));
    for limit in LIMITS {
        let of_call = |payload: &[u8]| Step::Pack {
            limit,
            payload: payload.to_vec(),
        };
        steps.extend(sets_wait.then(|| of_call(sets)));
        steps.push(of_call(payload));
    }
    Case { codec, steps }
}

/// A packet given to a new depacketizer, and where a run is open, and where one was closed, with
/// DONL or without.
pub fn packet_cases(codec: Codec, has_donl: bool, packet: &[u8]) -> [Case; 3] {
    let (start, last): (&[u8], &[u8]) = match codec {
        Codec::H264 => (&[0x7c, 0x81, 9], &[0x7c, 0x41, 8]),
        Codec::H265 => (&[0x62, 1, 0x81, 0, 0, 9], &[0x62, 1, 0x41, 8]),
        Codec::H266 => (&[0, 0xe9, 0x81, 0, 0, 9], &[0, 0xe9, 0x41, 8]),
    };
    let fronts: [&[&[u8]]; 3] = [&[], &[start], &[start, last]];
    fronts.map(|front| {
        let mut steps = Vec::from_iter(has_donl.then_some(Step::Donl(true)));
        let packets = front.iter().copied().chain([packet, last]);
        steps.extend(packets.map(|packet| Step::Unpack(packet.to_vec())));
        Case { codec, steps }
    })
}
