//! Writes a session description (RFC 8866) of a stream that is sent, as FFmpeg and GStreamer read it.

use crate::captures::frames::{DESTINATION, SOURCE};
use crate::commands::arguments::Send;
use crate::errors::Failure;
use crate::network::live::way_to;
use emupedestal::Codec;
use emupedestal::access_units::{is_parameter_set_type, is_slice_type, unit_type};
use emupedestal::sdp::{CodecParameters, Parameter, RtpMap, SetError};
use emupedestal::sdp::{H264Parameter, H264Parameters, H265Parameter, H265Parameters};
use emupedestal::sdp::{H266Parameter, H266Parameters};
use std::net::IpAddr;

/// So many parameter sets are described at most.
const MOST: usize = 64;

/// What a session description says of a stream.
pub struct Description {
    codec: Codec,
    /// Its parameter sets before the first picture behind one of them.
    sets: Vec<Vec<u8>>,
    is_whole: bool,
    /// How many bytes its longest unit has.
    longest: usize,
}

impl Description {
    pub fn new(codec: Codec) -> Self {
        Description {
            codec,
            sets: Vec::new(),
            is_whole: false,
            longest: 0,
        }
    }

    /// Looks at a unit of the stream.
    pub fn look(&mut self, unit: &[u8]) {
        self.longest = self.longest.max(unit.len());
        let Some(it) = unit_type(self.codec, unit) else {
            return;
        };
        if is_parameter_set_type(self.codec, it) && !self.is_whole {
            if self.sets.len() < MOST && !self.sets.iter().any(|set| set == unit) {
                self.sets.push(unit.into());
            }
        } else if is_slice_type(self.codec, it) {
            self.is_whole |= !self.sets.is_empty();
        }
    }

    /// Whether its parameter sets are known.
    pub fn is_whole(&self) -> bool {
        self.is_whole
    }

    /// The text of it.
    pub fn text(&self, asked: &Send) -> Result<String, Failure> {
        let format = match self.codec {
            Codec::H264 => self.of_h264(),
            Codec::H265 => self.of_h265(asked),
            Codec::H266 => self.of_h266(asked),
        };
        let format = format.map_err(|error| Failure::of(&asked.input, error))?;
        let (payload_type, port) = (asked.payload_type, asked.port);
        let map = RtpMap::new(payload_type, self.codec);
        let map = map.map_or(String::new(), |it| it.to_string());
        let destination = asked
            .to
            .map_or(DESTINATION.into(), |it| it.ip().to_canonical());
        let source = match asked.to {
            Some(to) => way_to(to.ip()).unwrap_or(destination),
            None => SOURCE.into(),
        };
        // Of a group of IPv4 it says how far packets go (RFC 8866, 5.7).
        let is_group = destination.is_ipv4() && destination.is_multicast();
        let ttl = if is_group { "/1" } else { "" };
        let lines = [
            "v=0".into(),
            format!("o=- {} 0 IN {}", asked.ssrc, address(source)),
            "s=-".into(),
            format!("c=IN {}{ttl}", address(destination)),
            "t=0 0".into(),
            format!("m=video {port} RTP/AVP {payload_type}"),
            format!("a=rtpmap:{map}"),
            format!("a=fmtp:{payload_type} {format}"),
            format!("a=framerate:{}", rate(asked.frames)),
        ];
        // Where nothing is known of the stream, there is no format to be told.
        let lines = lines.iter().filter(|line| !line.ends_with(' '));
        Ok(lines.flat_map(|line| [line, "\r\n"]).collect())
    }

    fn of_h264(&self) -> Result<String, SetError> {
        let mut format = match H264Parameters::of_units(&self.units()) {
            Ok(format) => format,
            Err(_) => self.of_sets(&[(H264Parameter::SpropParameterSets, &[7, 8])])?,
        };
        format.set(H264Parameter::PacketizationMode, "1")?;
        Ok(format.to_string())
    }

    fn of_h265(&self, asked: &Send) -> Result<String, SetError> {
        let mut format = match H265Parameters::of_units(&self.units()) {
            Ok(format) => format,
            Err(_) => self.of_sets(&[
                (H265Parameter::SpropVps, &[32]),
                (H265Parameter::SpropSps, &[33]),
                (H265Parameter::SpropPps, &[34]),
            ])?,
        };
        if asked.has_donl {
            format.set(H265Parameter::SpropMaxDonDiff, "1")?;
            format.set(H265Parameter::SpropDepackBufNalus, "1")?;
            format.set(H265Parameter::SpropDepackBufBytes, &self.buffer())?;
        }
        Ok(format.to_string())
    }

    fn of_h266(&self, asked: &Send) -> Result<String, SetError> {
        let mut format = match H266Parameters::of_units(&self.units()) {
            Ok(format) => format,
            Err(_) => self.of_sets(&[
                (H266Parameter::SpropVps, &[14]),
                (H266Parameter::SpropSps, &[15]),
                (H266Parameter::SpropPps, &[16]),
            ])?,
        };
        if asked.has_donl {
            format.set(H266Parameter::SpropMaxDonDiff, "1")?;
            format.set(H266Parameter::SpropDepackBufBytes, &self.buffer())?;
        }
        Ok(format.to_string())
    }

    fn units(&self) -> Vec<&[u8]> {
        self.sets.iter().map(Vec::as_slice).collect()
    }

    /// The sets alone, of these types, where none of them says a profile and a level.
    fn of_sets<P: Parameter>(&self, kinds: &[(P, &[u8])]) -> Result<CodecParameters<P>, SetError> {
        let mut format = CodecParameters::default();
        for (parameter, types) in kinds {
            let is_it = |it: &&Vec<u8>| {
                let unit_type = unit_type(self.codec, it);
                unit_type.is_some_and(|it| types.contains(&it))
            };
            let sets: Vec<Vec<u8>> = self.sets.iter().filter(is_it).cloned().collect();
            if !sets.is_empty() {
                format.set_units(*parameter, &sets)?;
            }
        }
        Ok(format)
    }

    /// How many bytes a receiver holds that puts units in order: those of the one that waits and of the next.
    fn buffer(&self) -> String {
        (2 * self.longest).clamp(1, u32::MAX as usize).to_string()
    }
}

/// An address with its type.
fn address(address: IpAddr) -> String {
    match address {
        IpAddr::V4(it) => format!("IP4 {it}"),
        IpAddr::V6(it) => format!("IP6 {it}"),
    }
}

/// So many pictures in so many seconds, as a number with a point (RFC 8866, 6.13).
fn rate((pictures, seconds): (u32, u32)) -> String {
    let rate = format!("{:.3}", f64::from(pictures) / f64::from(seconds));
    rate.trim_end_matches('0').trim_end_matches('.').into()
}
