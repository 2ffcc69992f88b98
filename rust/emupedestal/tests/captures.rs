//! The first packets of captures of WebRTC sessions as they come out of SRTP, beside the frames that the sender's
//! encoder made: each NAL unit's type and length. Chromium sends H.264 with RTX (RFC 4588), and with RED (RFC 2198) and
//! ULPFEC (RFC 5109); GStreamer sends H.265 with RTX. Packets are lost and resent on the way. Chromium is probed for
//! bandwidth by RTX packets that repeat old ones. What a receiver does before `AccessUnitReceiver` is done by hand here.

use emupedestal::access_unit_receiver::{AccessUnitConfig, AccessUnitReceiver, ReceivedAccessUnit};
use emupedestal::{Codec, RtpPacket, units};
use std::collections::HashSet;
use std::fs;

/// A capture, and the payload types of its session description.
struct Capture {
    codec: Codec,
    payload_type: u8,
    rtx: Option<u8>,
    red: Option<u8>,
    pcap: Vec<u8>,
    /// Of each frame its timestamp, whether it is a keyframe, and type and length of each NAL unit.
    frames: String,
}

fn capture(codec: Codec, types: (u8, Option<u8>, Option<u8>), name: &str) -> Capture {
    let (payload_type, rtx, red) = types;
    let path = format!("{}/tests/captures/{name}", env!("CARGO_MANIFEST_DIR"));
    Capture {
        codec,
        payload_type,
        rtx,
        red,
        pcap: fs::read(format!("{path}.pcap")).expect("a capture"),
        frames: fs::read_to_string(format!("{path}.frames.txt")).expect("its frames"),
    }
}

/// A packet of the media stream, or a number of it that bears no media.
struct Packet<'a> {
    /// Milliseconds.
    at: u32,
    sequence: u16,
    timestamp: u32,
    marker: bool,
    payload: Option<&'a [u8]>,
}

impl Capture {
    /// What the datagrams of the capture have, in the order in which they came.
    fn packets(&self) -> impl Iterator<Item = Packet<'_>> {
        let mut rest = &self.pcap[24..];
        let mut begin = None;
        core::iter::from_fn(move || {
            while !rest.is_empty() {
                let word = |at: usize| u32::from_le_bytes(*rest[at..].first_chunk().unwrap());
                let at = word(0).wrapping_mul(1000).wrapping_add(word(4) / 1000);
                let len = 16 + word(8) as usize;
                // Behind the record's header those of IP and UDP.
                let datagram = &rest[44..len];
                rest = &rest[len..];
                let at = at.wrapping_sub(*begin.get_or_insert(at));
                if let Some(packet) = self.packet(at, datagram) {
                    return Some(packet);
                }
            }
            None
        })
    }

    /// RTP (RFC 3550, 5.1 and 5.3.1), without padding, RTX and RED.
    fn packet<'a>(&self, at: u32, datagram: &'a [u8]) -> Option<Packet<'a>> {
        let word = |bytes: &[u8], at: usize| u16::from_be_bytes([bytes[at], bytes[at + 1]]);
        let timestamp = u32::from_be_bytes(*datagram[4..].first_chunk()?);
        let mut begin = 12 + 4 * usize::from(datagram[0] & 15);
        if datagram[0] & 16 > 0 {
            begin += 4 + 4 * usize::from(word(datagram, begin + 2));
        }
        let padding = match datagram[0] & 32 {
            0 => 0,
            _ => usize::from(*datagram.last()?),
        };
        let payload = &datagram[begin..datagram.len() - padding];
        let payload_type = datagram[1] & 127;
        let (sequence, payload) = match Some(payload_type) {
            // Without a number it is padding of the RTX stream.
            it if it == self.rtx && payload.len() < 2 => return None,
            it if it == self.rtx => (word(payload, 0), Some(&payload[2..])),
            it if it == self.red && payload[0] == self.payload_type => {
                (word(datagram, 2), Some(&payload[1..]))
            }
            it if it == self.red => (word(datagram, 2), None),
            _ => (word(datagram, 2), Some(payload)),
        };
        Some(Packet {
            at,
            sequence,
            timestamp,
            marker: datagram[1] > 127,
            payload,
        })
    }

    /// The access units that a receiver gives out.
    fn received(&self) -> Vec<ReceivedAccessUnit> {
        let config = AccessUnitConfig {
            max_wait: 300,
            ..AccessUnitConfig::default()
        };
        let mut receiver = AccessUnitReceiver::new(self.codec, config);
        let (mut received, mut marked) = (Vec::new(), HashSet::new());
        for it in self.packets() {
            if it.marker {
                marked.insert(it.sequence);
            }
            match it.payload {
                Some(payload) => {
                    let packet = RtpPacket {
                        sequence: it.sequence,
                        timestamp: it.timestamp,
                        marker: it.marker,
                        payload,
                    };
                    receiver.push(it.at, &packet).unwrap();
                }
                None => drop(receiver.skip(it.at, it.sequence).unwrap()),
            }
            while let Some(unit) = receiver.next(it.at).unwrap() {
                received.push(unit);
            }
        }
        assert_eq!(receiver.counts().refused, 0);
        receiver.finish();
        received.extend(core::iter::from_fn(|| receiver.next(0).unwrap()));
        // The excerpt may end within an access unit.
        if received.last().is_some_and(|it| !marked.contains(&it.last)) {
            received.pop();
        }
        received
    }

    /// What the encoder made with this timestamp.
    fn frame(&self, timestamp: u32) -> Option<Vec<&str>> {
        let frames = self.frames.lines();
        let mut frames = frames.map(|line| line.split(' ').collect::<Vec<&str>>());
        frames.find(|frame| frame[0] == timestamp.to_string())
    }

    /// The timestamp of the frame that the encoder made before one.
    fn before(&self, timestamp: u32) -> Option<u32> {
        let times = self.frames.lines().map(|line| line.split(' ').next());
        let times = times.map(|time| time.unwrap().parse::<u32>().unwrap());
        times.take_while(|time| *time != timestamp).last()
    }

    /// Whether an access unit has the NAL units of the frame with its timestamp.
    fn is_frame(&self, unit: &ReceivedAccessUnit) -> bool {
        let each = units(self.codec, &unit.bytes).map(|it| {
            let kind = match self.codec {
                Codec::H264 => it[0] & 0x1f,
                _ => it[0] >> 1 & 0x3f,
            };
            format!("{kind}:{}", it.len())
        });
        let each: Vec<String> = each.collect();
        self.frame(unit.timestamp)
            .is_some_and(|frame| frame[2..] == each)
    }
}

/// The access units of a capture, each beside the frame of its timestamp. Exactly those are told to be whole that are that
/// frame, and not behind a lost packet: none has a delimiter. All keyframes begin with their parameter sets, and
/// others refer to each other picture: so a keyframe is clean where it is that frame, and any that is its frame behind
/// the one that was made before it, if that is clean.
fn check(capture: &Capture) -> Vec<ReceivedAccessUnit> {
    let received = capture.received();
    let mut clean = None;
    for unit in &received {
        let frame = capture.frame(unit.timestamp).expect("a frame");
        let (is_frame, is_key) = (capture.is_frame(unit), frame[1] == "key");
        let is_whole = is_frame && unit.missing == 0;
        assert_eq!(unit.is_whole, is_whole, "{}", unit.first);
        let before = capture.before(unit.timestamp);
        let is_clean = is_frame && (is_key || before.is_some() && before == clean);
        assert_eq!(unit.is_clean, is_clean, "{}", unit.first);
        clean = is_clean.then_some(unit.timestamp).or(clean);
        assert!(!unit.is_disposable && !unit.continues, "{}", unit.first);
    }
    received
}

/// Of which each frame came, though some packets only once they were asked for again.
#[track_caller]
fn is_all_clean(capture: &Capture) {
    let received = check(capture);
    let told = received.iter().map(|unit| unit.timestamp.to_string());
    // The excerpt ends within a frame.
    let frames = capture
        .frames
        .lines()
        .map(|line| line.split(' ').next().unwrap());
    let frames: Vec<&str> = frames.collect();
    assert_eq!(told.collect::<Vec<String>>(), frames[..received.len()]);
    assert!(frames.len() - received.len() <= 1);
    assert!(received.iter().all(|unit| unit.is_whole && unit.is_clean));
}

#[test]
fn chromium_with_rtx() {
    let name = "chromium-h264-rtx-loss";
    is_all_clean(&capture(Codec::H264, (108, Some(109), None), name));
}

#[test]
fn gstreamer_with_rtx() {
    let name = "gst-h265-rtx-loss";
    is_all_clean(&capture(Codec::H265, (97, Some(96), None), name));
}

/// Of the first keyframe a packet is lost, and so one is in each run of clean ones, until the next keyframe.
#[test]
fn chromium_with_red() {
    let name = "chromium-h264-red-ulpfec-loss";
    let received = check(&capture(Codec::H264, (108, None, Some(118)), name));
    let clean = received.iter().filter(|unit| unit.is_clean);
    let clean: Vec<u16> = clean.map(|unit| unit.first).collect();
    assert_eq!(
        clean,
        [15769, 15774, 15776, 15778, 15780, 15798, 15803, 15805]
    );
}

/// A packet of FEC is lost right before an access unit, whose frame number tells that no picture is.
#[test]
fn chromium_with_red_of_which_fec_is_lost() {
    let name = "chromium-h264-red-ulpfec-fec-loss";
    let received = check(&capture(Codec::H264, (108, None, Some(118)), name));
    assert!(received.iter().all(|unit| unit.is_clean));
    let behind = received.iter().filter(|unit| unit.missing > 0);
    assert_eq!(behind.map(|it| it.first).collect::<Vec<_>>(), [16066]);
}
