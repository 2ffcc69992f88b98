//! Tests of every call, by the crate of the sources that it is made from: expected packets, units and answers are from
//! outside, written out by hand from the RFCs, or as the crate has them that this is a port of. Some ask calls that no
//! public call makes. What takes memory is refused it in `tests/no_memory`, and what is held is counted in `tests/held.rs`.
//!
//! | Of | is asked |
//! |---|---|
//! | `rows` | the texts of `h26x_rows`: sending, receiving, dispatch, transmissions, cutting, header words, profiles |
//! | `h26x_core` | `words`: header words, and numbers of units and packets |
//! | `h26x_cut` | where the next unit of a payload stands |
//! | `h26x_packetizer` | `payloads`: single packets, fragments, aggregates, limits; `packets`: those in a caller's buffer; `numbers`: DON; `every_unit`, `unit_lists`: packets of all units; `every_unit_received`: what then comes; `unit_rows`: texts of them; `buffers`: a buffer of packets |
//! | `h26x_depacketizer` | `units`: what is written and told; `refusals`; `quiet`: with and without what is shown; `open_text`: a text that is given up, the run in it, and its memory |
//! | `h265_packets` | `packets`: equality, buffers; `shown`: what a depacketizer shows, PACI packets |
//! | `h26x_codec` | `look`: keyframes, heads, tails, hints, units of a payload; `place_rows`: texts of units and their places |
//! | `h26x_transmission` | `codecs`: ends of any codec and in a box; `ends`: copies, equality, debug text; `threads`; `take_all`: packets lost, cut and refused; `long_unit`: 100,000 bytes through both ends |
//! | `h26x_receiver` | packets by sequence numbers: missing, late, too long |
//! | `h26x_assembler` | `assembler`: order and access units; `one_by_one`: limits; `network`: losses, drawn, beside a plain model |
//! | `h26x_access_units` | `receiver`: what is given out and asked for; `told`: whole, clean, disposable, across gaps; `steps`: a stream step by step, and what is counted; `rows`, `nack_rows`: texts |
//! | `h26x_profile` | `profiles`: profiles and levels; `patterns`: of bits |
//! | `h26x_sdp` | `lines`: lines of real ends, and each call; `parameters`: values (and of `h26x_fmtp`); `capability_points`; `rows`: texts |
//! | `h26x_answers` | `answers`, `directions`: by hand from the RFCs; `offers`: of ends and of the RFCs; `answer_rows`, `direction_rows`: texts |
//! | `h26x_stream_parameters` | `streams`: what streams say; `sets`: what their sets say |
//! | `h26x_rtp`, `h26x_rtp_receiver`, `h26x_rtp_sender` | headers, RTX, RED, RTCP; datagrams of a stream; packets sent, held and sent again |
//! | by hand | `access_units`: where they begin in a stream; `stored`: values by serde; `caveats`: what the documents warn of |

mod access_units;
mod caveats;
mod h265_packets {
    mod packets;
    mod shown;
}
mod h26x_access_units {
    mod nack_rows;
    mod receiver;
    mod rows;
    mod steps;
    mod told;
}
#[cfg(feature = "sdp")]
mod h26x_answers {
    mod answer_rows;
    mod answers;
    mod direction_rows;
    mod directions;
    mod offers;
}
mod h26x_assembler {
    mod assembler;
    mod network;
    mod one_by_one;
}
mod h26x_codec {
    mod look;
    mod place_rows;
}
mod h26x_core {
    mod words;
}
mod h26x_cut;
mod h26x_depacketizer {
    mod open_text;
    mod quiet;
    mod refusals;
    mod units;
}
mod h26x_packetizer {
    pub(super) mod buffers;
    mod every_unit;
    mod every_unit_received;
    mod numbers;
    mod packets;
    mod payloads;
    mod unit_lists;
    mod unit_rows;
}
mod h26x_profile {
    mod patterns;
    mod profiles;
}
mod h26x_receiver;
mod h26x_rtp;
mod h26x_rtp_receiver;
mod h26x_rtp_sender;
#[cfg(feature = "sdp")]
mod h26x_sdp {
    mod capability_points;
    mod lines;
    mod parameters;
    mod rows;
}
#[cfg(feature = "sdp")]
mod h26x_stream_parameters {
    mod sets;
    mod streams;
}
mod h26x_transmission {
    mod codecs;
    mod ends;
    mod long_unit;
    mod take_all;
    mod threads;
}
mod rows;
#[cfg(feature = "serde")]
mod stored;

use crate::{Codec, CodecExtra, Depacketizer, PacketError, Packetizer};
use crate::{H264CodecExtra, H265CodecExtra, H266CodecExtra};

/// An answer of a call that brings nothing back.
type Answer = Result<(), PacketError>;

/// The bytes that hexadecimal digits name; spaces are for the reader.
fn bytes(hex: &str) -> Vec<u8> {
    let digits: Vec<u32> = hex
        .chars()
        .filter(|c| *c != ' ')
        .map(|c| c.to_digit(16).expect("a digit"))
        .collect();
    assert!(digits.len() % 2 == 0, "two digits a byte");
    digits
        .chunks(2)
        .map(|pair| (pair[0] << 4 | pair[1]) as u8)
        .collect()
}

/// Lists of bytes with a space between each two, `-` for none.
fn list(text: &str) -> Vec<Vec<u8>> {
    let words = text.split(' ').filter(|word| !word.is_empty());
    words.map(|word| bytes(word.trim_matches('-'))).collect()
}

/// What is told of units of a codec.
fn told(codec: Codec, is_keyframe: bool) -> CodecExtra {
    match codec {
        Codec::H264 => CodecExtra::H264(H264CodecExtra { is_keyframe }),
        Codec::H265 => CodecExtra::H265(H265CodecExtra { is_keyframe }),
        Codec::H266 => CodecExtra::H266(H266CodecExtra { is_keyframe }),
    }
}

/// A payload of these units, each behind a start code.
fn payload(units: &[&str]) -> Vec<u8> {
    units
        .iter()
        .flat_map(|unit| [vec![0, 0, 1], bytes(unit)].concat())
        .collect()
}

/// Sends a payload, and compares its packets with what is wanted.
#[track_caller]
fn sends(end: &mut dyn Packetizer, mtu: usize, payload: &[u8], wanted: &[&str]) {
    let wanted: Vec<Vec<u8>> = wanted.iter().map(|packet| bytes(packet)).collect();
    assert_eq!(end.packetize(mtu, payload), Ok(wanted));
}

/// What packets write and tell, all of which are accepted.
#[track_caller]
fn received(end: &mut dyn Depacketizer, packets: &[&str]) -> (Vec<u8>, CodecExtra) {
    let (mut out, mut extra) = (Vec::new(), CodecExtra::None);
    for packet in packets {
        let taken = end.depacketize(&bytes(packet), &mut out, &mut extra);
        assert_eq!(taken, Ok(()), "{packet}");
    }
    (out, extra)
}

/// Takes packets, and compares what is written with what is wanted.
#[track_caller]
fn writes(end: &mut dyn Depacketizer, packets: &[&str], wanted: &str) {
    assert_eq!(received(end, packets).0, bytes(wanted), "{packets:?}");
}

/// Gives a packet that is refused as `wanted`, with bytes and an extra that must stay.
#[track_caller]
fn refuses(end: &mut dyn Depacketizer, packet: &str, wanted: PacketError) {
    let (mut out, mut extra) = (vec![7, 8], CodecExtra::None);
    let refused = end.depacketize(&bytes(packet), &mut out, &mut extra);
    assert_eq!(refused, Err(wanted), "{packet}");
    assert_eq!((out, extra), (vec![7, 8], CodecExtra::None), "{packet}");
}
