//! What `packetize_units` sends is received: each unit, in order, and nothing more, in as few packets as there can be.

use crate::access_unit_receiver::{AccessUnitConfig, AccessUnitReceiver, Pushed};
use crate::access_units::access_units;
use crate::tests::bytes;
use crate::{Codec, CodecDepacketizer, CodecExtra, CodecPacketizer, Depacketizer, Packing};
use crate::{Packetizer, RtpPacket};
use std::process::{Command, Stdio};

const LIMITS: [usize; 5] = [100, 300, 1200, 1460, 65535];

/// How a stream is sent.
#[derive(Clone, Copy, Debug)]
struct Way {
    codec: Codec,
    has_donl: bool,
    packing: Packing,
    limit: usize,
}

impl Way {
    fn packetizer(&self) -> CodecPacketizer {
        let mut end = CodecPacketizer::new(self.codec);
        end.with_max_packet_size(65535);
        end.with_donl(self.has_donl);
        end
    }

    /// The bytes of DONL; H.264 has none.
    fn number(&self) -> usize {
        2 * usize::from(self.has_donl && self.codec != Codec::H264)
    }

    /// How many packets one unit has: of a fragment the unit's header isn't sent, and FU-A has two bytes before its
    /// data, FU three (RFC 6184, 5.8; RFC 7798, 4.4.3; RFC 9328, 4.3.3).
    fn alone(&self, unit: &[u8]) -> usize {
        let (header, fragment) = if self.codec == Codec::H264 {
            (1, 2)
        } else {
            (2, 3)
        };
        let fits = unit.len() + self.number() <= self.limit;
        let of_data = || (unit.len() - header + self.number()).div_ceil(self.limit - fragment);
        if fits { 1 } else { of_data() }
    }

    /// Whether units fit one aggregate: behind its header and DONL each has a length of two bytes, and of H.265 each
    /// but the first a DOND (RFC 6184, 5.7.1; RFC 7798, 4.4.2; RFC 9328, 4.3.2).
    fn fit_together(&self, units: &[&[u8]]) -> bool {
        let header = if self.codec == Codec::H264 { 1 } else { 2 };
        let has_dond = self.number() > 0 && self.codec == Codec::H265;
        let donds = if has_dond { units.len() - 1 } else { 0 };
        let with_lengths: usize = units.iter().map(|unit| 2 + unit.len()).sum();
        header + self.number() + with_lengths + donds <= self.limit
    }

    /// The fewest packets of units, by each place at which the last packet may begin.
    fn fewest(&self, units: &[&[u8]]) -> usize {
        let mut fewest = vec![0];
        for end in 1..=units.len() {
            let alone = fewest[end - 1] + self.alone(units[end - 1]);
            let together = (0..end.saturating_sub(1))
                .filter(|begin| self.fit_together(&units[*begin..end]))
                .map(|begin| fewest[begin] + 1);
            fewest.push(together.fold(alone, usize::min));
        }
        fewest[units.len()]
    }

    fn one_by_one(&self, units: &[&[u8]]) -> usize {
        units.iter().map(|unit| self.alone(unit)).sum()
    }
}

/// The units of a text, found byte by byte; those of H.266 here end in no zero.
fn cut(text: &[u8]) -> Vec<&[u8]> {
    let mut codes = (0..text.len()).filter(|at| text[*at..].starts_with(&[0, 0, 1]));
    let mut units = Vec::new();
    let mut begin = codes.next().expect("a start code") + 3;
    for end in codes.chain([text.len()]) {
        let zeros = text[begin..end].iter().rev().take_while(|byte| **byte == 0);
        units.push(&text[begin..end - zeros.count()]);
        begin = end + 3;
    }
    units
}

fn behind_codes(units: &[&[u8]]) -> Vec<u8> {
    units
        .iter()
        .flat_map(|unit| [&[0, 0, 0, 1], *unit].concat())
        .collect()
}

/// Sends access units, and reads them by a depacketizer and by a receiver; how many packets there were.
fn round_trip(way: Way, stream: &[Vec<u8>]) -> usize {
    let mut sends = way.packetizer();
    let mut reads = CodecDepacketizer::new(way.codec);
    reads.with_donl(way.has_donl);
    let config = AccessUnitConfig::default();
    let mut receiver = AccessUnitReceiver::with_settings(way.codec, way.has_donl, false, config);
    let (mut sequence, mut timestamp, mut sent) = (65530u16, 0u32, 0);
    for access_unit in stream {
        let wanted = behind_codes(&cut(access_unit));
        let packets = sends
            .packetize_access_unit(way.packing, way.limit, access_unit)
            .unwrap()
            .unwrap();
        assert!(packets.iter().all(|it| it.len() <= way.limit), "{way:?}");
        let (mut out, mut extra) = (Vec::new(), CodecExtra::None);
        for (i, payload) in packets.iter().enumerate() {
            reads.depacketize(payload, &mut out, &mut extra).unwrap();
            let marker = sends.is_marker(payload, None, i + 1 == packets.len());
            let packet = RtpPacket {
                sequence,
                timestamp,
                marker,
                payload,
            };
            assert_eq!(receiver.push(0, &packet), Ok(Pushed::Held));
            sequence = sequence.wrapping_add(1);
        }
        assert!(out == wanted, "{way:?}");
        let received = receiver.next(0).unwrap().expect("an access unit");
        assert!(received.bytes == wanted && received.is_whole, "{way:?}");
        assert!(receiver.next(0).unwrap().is_none(), "{way:?}");
        sent += packets.len();
        timestamp += 3000;
    }
    sent
}

/// Sends access units in every way, and compares how many packets there are with what the RFCs make of lengths.
fn sends_in_every_way(codec: Codec, stream: &[Vec<u8>]) {
    for (limit, has_donl) in LIMITS.into_iter().flat_map(|it| [(it, false), (it, true)]) {
        let sent = |packing| {
            let way = Way {
                codec,
                has_donl,
                packing,
                limit,
            };
            (way, round_trip(way, stream))
        };
        let (way, together) = sent(Packing::Together);
        let sum = |count: &dyn Fn(&[&[u8]]) -> usize| -> usize {
            stream.iter().map(|it| count(&cut(it))).sum()
        };
        let one_by_one = sum(&|units| way.one_by_one(units));
        assert_eq!(together, sum(&|units| way.fewest(units)), "{way:?}");
        assert_eq!(sent(Packing::Apart).1, one_by_one, "{way:?}");
        let before_slices = sent(Packing::BeforeSlices).1;
        assert!((together..=one_by_one).contains(&before_slices), "{way:?}");
        if limit == 65535 {
            assert_eq!(sent(Packing::Single).1, one_by_one, "{way:?}");
        }
    }
}

/// Access units of these beginnings of units, drawn longer: the first of a slice says that a picture begins.
fn drawn(heads: &[&str], slice: &str) -> Vec<Vec<u8>> {
    let mut drawn = 7u32;
    let mut below = |n: u32| {
        drawn = drawn.wrapping_mul(1_664_525).wrapping_add(1_013_904_223);
        (drawn >> 16) % n
    };
    let longest = [3, 40, 400, 3000];
    let mut access_unit = || {
        let slices = vec![slice; below(6) as usize];
        let units = heads.iter().copied().chain(slices);
        let with_data = units.flat_map(|head| {
            let longest = longest[below(4) as usize];
            let len = below(longest);
            [bytes("00000001"), bytes(head), vec![0xaa; len as usize]].concat()
        });
        with_data.collect()
    };
    (0..20).map(|_| access_unit()).collect()
}

#[test]
fn drawn_access_units() {
    let heads = ["0910", "6742", "68ce", "68cf", "0605", "658888"];
    sends_in_every_way(Codec::H264, &drawn(&heads, "654288"));
    let heads = ["460150", "40010c", "420101", "4401c1", "4e0105", "2601af"];
    sends_in_every_way(Codec::H265, &drawn(&heads, "26012f"));
    let heads = [
        "00a128", "0079bb", "0081cc", "0081cd", "00b905", "009911", "004111",
    ];
    sends_in_every_way(Codec::H266, &drawn(&heads, "004112"));
}

/// What FFmpeg encodes of a picture that moves; nothing where it is missing or can't.
fn encoded(encoder: &str, parameters: &str) -> Option<Vec<u8>> {
    let (name, format) = match encoder {
        "libx264" => ("-x264-params", "h264"),
        _ => ("-x265-params", "hevc"),
    };
    let source = "testsrc=size=320x240:rate=10";
    let words = ["-v", "error", "-f", "lavfi", "-i", source, "-frames:v", "8"];
    let output = ["-pix_fmt", "yuv420p", "-f", format, "-"];
    let mut command = Command::new("ffmpeg");
    command
        .args(words)
        .args(["-c:v", encoder, name, parameters]);
    let made = command.args(output).stderr(Stdio::null()).output().ok();
    let stream = made.filter(|it| it.status.success()).map(|it| it.stdout);
    if stream.is_none() {
        eprintln!("left out, since ffmpeg can't: {encoder}");
    }
    stream
}

#[test]
fn streams_of_ffmpeg() {
    for (codec, encoder, parameters) in [
        (Codec::H264, "libx264", "keyint=4:aud=1:slices=8"),
        (Codec::H264, "libx264", "keyint=4:slice-max-size=300"),
        (
            Codec::H264,
            "libx264",
            "keyint=4:repeat-headers=1:nal-hrd=vbr:vbv-maxrate=900:vbv-bufsize=900",
        ),
        (
            Codec::H265,
            "libx265",
            "keyint=4:slices=4:hash=1:log-level=none",
        ),
        (
            Codec::H265,
            "libx265",
            "keyint=4:aud=1:repeat-headers=1:log-level=none",
        ),
    ] {
        let Some(stream) = encoded(encoder, parameters) else {
            continue;
        };
        let units: Vec<Vec<u8>> = access_units(codec, &stream).map(<[u8]>::to_vec).collect();
        assert_eq!(units.len(), 8, "{parameters}");
        sends_in_every_way(codec, &units);
    }
}
