//! What is odd about how a stream is sent, in words: what its timestamps, its markers and its units tell.

use crate::captures::packets::Captured;
use crate::streams::names::is_keyframe_type;
use crate::streams::payload::each_type;
use emupedestal::Codec;
use emupedestal::access_units::{is_parameter_set_type, is_slice_type};

/// So many packets tell how a stream is sent.
const TELLING: u64 = 16;

#[derive(Default)]
pub struct Diagnoses {
    packets: u64,
    markers: u64,
    /// What the receiver counts: access units that began, by their units, at the timestamp of the one before; and markers
    /// that it doesn't believe.
    pub still: u64,
    pub unbelieved: u64,
    slices: u64,
    keyframes: u64,
    sets: u64,
}

impl Diagnoses {
    /// A packet was taken, in the order of the numbers.
    pub fn take(&mut self, codec: Codec, has_donl: bool, packet: &Captured<'_>) {
        let rtp = &packet.rtp;
        self.packets += 1;
        self.markers += u64::from(rtp.marker);
        each_type(codec, has_donl, rtp.payload, |it| {
            self.slices += u64::from(is_slice_type(codec, it));
            self.keyframes += u64::from(is_keyframe_type(codec, it));
            self.sets += u64::from(is_parameter_set_type(codec, it));
        });
    }

    /// What is odd of a stream of so many access units, a sentence each; `has_sets` tells that the parameter sets came
    /// another way.
    pub fn told(&self, has_sets: bool, access_units: u64) -> Vec<String> {
        if self.packets < TELLING {
            return Vec::new();
        }
        // (of two fields of a picture the second may have the timestamp of the first)
        let stands = self.still > 0 && self.still * 4 >= access_units * 3;
        let each_slice = self.unbelieved > 0 && self.unbelieved * 4 >= self.markers;
        let odd = [
            (
                stands,
                "its timestamp stands still: each picture needs one of its own (RFC 3550, 5.1)",
            ),
            (
                self.markers == 0,
                "no packet has the marker: the last packet of each picture needs it (RFC 6184, 5.1)",
            ),
            (
                each_slice,
                "markers stand on each slice or set: only the last packet of a picture may have one (RFC 6184, 5.1)",
            ),
            (
                self.sets == 0 && self.slices > 0 && !has_sets,
                "no parameter sets are in it: a decoder needs those of the session description (--sdp)",
            ),
            (
                self.keyframes == 0 && self.slices > 0,
                "no keyframe is in it: a decoder can't begin; have the sender send one (PLI, RFC 4585, 6.3.1)",
            ),
        ];
        let odd = odd.into_iter().filter(|it| it.0);
        odd.map(|it| format!("odd: {}", it.1)).collect()
    }
}
