//! Reads a session description (RFC 8866): the stream of it that is to be looked at.

use crate::captures::input;
use crate::errors::Failure;
use crate::streams::chooser::Choice;
use crate::streams::codecs::name;
use crate::streams::formats::Format;
use crate::streams::payload_types::PayloadTypes;
use emupedestal::Codec;
use emupedestal::sdp::RtpMap;
use std::collections::HashMap;
use std::io::Read;
use std::path::Path;

/// No session description is longer.
const LONGEST: u64 = 1 << 20;
/// So many payload types that the sender may have chosen are looked for, and so many that are passed over are named.
const MOST: usize = 16;
/// Ports that say that the packets go elsewhere: 0, as in RTSP, and that of discarded ones, as in an offer of WebRTC.
const NO_PORTS: [u16; 2] = [0, 9];
/// What protocols begin with whose packets go where ICE finds, and not to the port (RFC 8839, 4.2.1).
const BY_ICE: [&str; 2] = ["UDP/TLS/", "TCP/"];

/// A stream as it is described.
pub struct Described {
    pub codec: Codec,
    pub payload_type: u8,
    /// The port that it is sent to, where the description says it.
    pub port: Option<u16>,
    pub has_donl: bool,
    pub sets: Vec<Vec<u8>>,
    /// Payload types of what is sent with it.
    pub types: PayloadTypes,
    /// What is passed over of the description, in words.
    pub passed_over: Option<String>,
}

/// A payload type of a description, and what it says of its format.
struct Offered<'a> {
    /// The line of its media.
    media: &'a str,
    map: RtpMap,
    port: Option<u16>,
    format: &'a str,
    types: PayloadTypes,
}

/// The first stream of a description that is one of those that are asked for, and such others of its media and codec as the
/// sender may have chosen instead, with other payload types.
pub fn described(path: &Path, choice: &Choice) -> Result<(Described, Vec<Described>), Failure> {
    let text = text_of(path)?;
    let offered = offered(&text);
    let suits = |it: &&Offered<'_>| {
        choice.codec.is_none_or(|codec| codec == it.map.codec())
            && choice
                .payload_type
                .is_none_or(|of| of == it.map.payload_type())
    };
    let mut suiting = offered.iter().filter(suits);
    let Some(first) = suiting.next() else {
        return Err(none(path, &offered));
    };
    let is_other = |it: &&Offered<'_>| {
        std::ptr::eq(it.media, first.media) && it.map.codec() == first.map.codec()
    };
    let others = suiting.filter(is_other).take(MOST);
    let others = others.filter_map(|it| it.described(&text).ok());
    let of_first = first
        .described(&text)
        .map_err(|what| Failure::of(path, what))?;
    Ok((of_first, others.collect()))
}

impl Offered<'_> {
    /// The stream that it describes; the error says what is wrong with its format.
    fn described(&self, text: &str) -> Result<Described, String> {
        let (codec, payload_type) = (self.map.codec(), self.map.payload_type());
        let format = Format::read(codec, self.format)
            .map_err(|what| format!("a=fmtp:{payload_type}: {what}"))?;
        Ok(Described {
            codec,
            payload_type,
            port: self.port,
            has_donl: format.has_donl,
            sets: format.sets,
            types: self.types.clone(),
            passed_over: passed_over(text, self),
        })
    }
}

/// The payload types of a description that aren't of a stream's session, with what it calls them.
fn passed_over(text: &str, stream: &Offered<'_>) -> Option<String> {
    let types = stream.types.of_stream(stream.map.payload_type());
    let others = [types.rtx, types.red, types.rtx_of_red, types.fec];
    let lines: Vec<&str> = text.lines().map(str::trim).collect();
    let (mut passed, mut more) = (Vec::new(), 0);
    for media in lines.chunk_by(|_, line| !line.starts_with("m=")) {
        let is_its = std::ptr::eq(media[0], stream.media);
        let maps = media.iter().filter_map(|it| it.strip_prefix("a=rtpmap:"));
        for (number, encoding) in maps.filter_map(|it| it.split_once(' ')) {
            let payload_type = number.parse().ok();
            let is_of_it = payload_type == Some(types.media) || others.contains(&payload_type);
            match is_its && payload_type.is_some() && is_of_it {
                true => {}
                false if passed.len() < MOST => passed.push(format!("{number} ({encoding})")),
                false => more += 1,
            }
        }
    }
    if more > 0 {
        passed.push(format!("and {more} more"));
    }
    (!passed.is_empty()).then(|| {
        let passed = passed.join(", ");
        format!("passed over of the session description: payload types {passed}")
    })
}

fn text_of(path: &Path) -> Result<String, Failure> {
    let failed = |error| Failure::reading(path, &error);
    let file = input::open(path).map_err(failed)?;
    let mut bytes = Vec::new();
    let read = file.take(LONGEST + 1).read_to_end(&mut bytes);
    if read.map_err(failed)? as u64 > LONGEST {
        let what = "this is longer than session descriptions are (1 MiB); name one";
        return Err(Failure::of(path, what));
    }
    Ok(String::from_utf8_lossy(&bytes).into_owned())
}

/// The payload types of H.264, H.265 and H.266 in a description, in the order of its media and of the lists there, where
/// the one that is preferred stands first (RFC 3264, 5.1).
fn offered(text: &str) -> Vec<Offered<'_>> {
    let mut offered = Vec::new();
    let lines: Vec<&str> = text.lines().map(str::trim).collect();
    // What stands before all media is of each.
    let session = lines.iter().take_while(|it| !it.starts_with("m="));
    let session: Vec<&str> = session.copied().collect();
    for media in lines.chunk_by(|_, line| !line.starts_with("m=")) {
        let port = media[0].strip_prefix("m=").and_then(port_of);
        let types = PayloadTypes::of_media(&[&session, media].concat());
        let values = |name| media.iter().filter_map(move |line| line.strip_prefix(name));
        let mut formats = HashMap::new();
        for (payload_type, format) in values("a=fmtp:").filter_map(format_of) {
            formats.entry(payload_type).or_insert(format);
        }
        let maps = values("a=rtpmap:").filter_map(|it| it.parse::<RtpMap>().ok());
        let mut maps: Vec<RtpMap> = maps.collect();
        maps.sort_by_key(|it| preference(media[0], it.payload_type()));
        for map in maps {
            let format = formats.get(&map.payload_type());
            offered.push(Offered {
                media: media[0],
                map,
                port,
                format: format.copied().unwrap_or_default(),
                types: types.clone(),
            });
        }
    }
    offered
}

/// The port of a media, as in `video 5004 RTP/AVP 96` or `video 5004/2 RTP/AVP 96` (RFC 8866, 5.14).
fn port_of(media: &str) -> Option<u16> {
    let mut words = media.split_ascii_whitespace().skip(1);
    let port = words.next()?.split('/').next()?.parse().ok()?;
    let protocol = words.next().unwrap_or_default();
    let is_by_ice = BY_ICE.iter().any(|it| protocol.starts_with(it));
    (!is_by_ice && !NO_PORTS.contains(&port)).then_some(port)
}

/// The place of a payload type in the list of a media, as in `video 5004 RTP/AVP 97 96`; behind all where it has none.
fn preference(media: &str, payload_type: u8) -> usize {
    let mut listed = media.split_ascii_whitespace().skip(3);
    let place = listed.position(|it| it.parse() == Ok(payload_type));
    place.unwrap_or(usize::MAX)
}

/// The payload type of a line, and what stands behind it.
fn format_of(line: &str) -> Option<(u8, &str)> {
    let (number, format) = line.split_once(' ').unwrap_or((line, ""));
    Some((number.parse().ok()?, format))
}

/// Says that a description has no such stream, and what it has.
fn none(path: &Path, offered: &[Offered<'_>]) -> Failure {
    let named = |it: &Offered<'_>| {
        let of = it.map.payload_type();
        format!("{} as payload type {of}", name(it.map.codec()))
    };
    let named: Vec<String> = offered.iter().map(named).collect();
    let what = match named[..] {
        [] => "this describes no stream of H.264, H.265 or H.266 (by a line as \
            a=rtpmap:96 H264/90000); name a session description that does"
            .into(),
        _ => format!(
            "none of the streams that it describes is the one asked for (by --codec, \
             --payload-type or the file's ending); it has {}",
            named.join(", ")
        ),
    };
    Failure::of(path, what)
}
