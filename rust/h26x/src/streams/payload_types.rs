//! What a session gives payload types to beside a codec: retransmissions (RTX, RFC 4588), redundant payloads (RED, RFC
//! 2198) and forward error correction (FEC, RFC 5109); by its description, or by options.

use emupedestal::rtp_receiver::RtpPayloadTypes;
use emupedestal::sdp::{RepairFormat, RepairMap, RtxFormat};

const RID: &str = "urn:ietf:params:rtp-hdrext:sdes:rtp-stream-id";
const REPAIRED_RID: &str = "urn:ietf:params:rtp-hdrext:sdes:repaired-rtp-stream-id";

#[derive(Default, Clone)]
pub struct PayloadTypes {
    /// Those of RTX, each with the one that it sends again.
    rtx: Vec<(u8, u8)>,
    red: Vec<u8>,
    fec: Vec<u8>,
    /// SSRCs of streams, each with the one that sends it again (RFC 5576, 4.2).
    groups: Vec<(u32, u32)>,
    /// The elements of header extensions that name a stream, and the one that is sent again (RFC 8852).
    pub rid: Option<u8>,
    pub repaired_rid: Option<u8>,
}

impl PayloadTypes {
    /// Those of a media of a session description, by its lines (RFC 4588, 8; RFC 8285, 5).
    pub fn of_media(lines: &[&str]) -> Self {
        let mut types = PayloadTypes::default();
        for line in lines {
            let Some((name, value)) = line.split_once(':') else {
                continue;
            };
            let (first, rest) = value.split_once(' ').unwrap_or((value, ""));
            match name {
                "a=rtpmap" => types.read_map(value),
                "a=fmtp" => types.read_format(first, rest),
                "a=ssrc-group" if first == "FID" => types.read_group(rest),
                "a=extmap" => types.read_extension(first, rest),
                _ => {}
            }
        }
        types
    }

    fn read_map(&mut self, value: &str) {
        let Ok(map) = value.parse::<RepairMap>() else {
            return;
        };
        match map.format() {
            RepairFormat::Rtx => {}
            RepairFormat::Red => self.red.push(map.payload_type()),
            _ => self.fec.push(map.payload_type()),
        }
    }

    fn read_format(&mut self, payload_type: &str, format: &str) {
        if let (Ok(payload_type), Ok(format)) = (payload_type.parse(), format.parse::<RtxFormat>())
        {
            self.rtx.push((payload_type, format.payload_type()));
        }
    }

    fn read_group(&mut self, ssrcs: &str) {
        let mut ssrcs = ssrcs.split_ascii_whitespace().map(str::parse);
        if let (Some(Ok(original)), Some(Ok(again))) = (ssrcs.next(), ssrcs.next()) {
            self.groups.push((original, again));
        }
    }

    fn read_extension(&mut self, id: &str, uri: &str) {
        let id = id.split('/').next().and_then(|it| it.parse().ok());
        match uri.split_ascii_whitespace().next() {
            Some(RID) => self.rid = id,
            Some(REPAIRED_RID) => self.repaired_rid = id,
            _ => {}
        }
    }

    /// Adds one of RTX, as in `97=96`; whether it can be read.
    pub fn read_rtx(&mut self, value: &str) -> bool {
        let pair = value.split_once('=');
        let pair = pair.map(|(rtx, original)| (rtx.parse(), original.parse()));
        match pair {
            Some((Ok(rtx @ 0..128), Ok(original @ 0..128))) if rtx != original => {
                self.add_rtx(rtx, original);
                true
            }
            _ => false,
        }
    }

    pub fn add_rtx(&mut self, rtx: u8, original: u8) {
        if !self.rtx.contains(&(rtx, original)) {
            self.rtx.push((rtx, original));
        }
    }

    pub fn add_red(&mut self, payload_type: u8) {
        if !self.is_red(payload_type) {
            self.red.push(payload_type);
        }
    }

    /// Those of the stream of a codec's payload type.
    pub fn of_stream(&self, media: u8) -> RtpPayloadTypes {
        let sent_again_by = |original: u8| {
            let of_it = |it: &&(u8, u8)| it.1 == original;
            self.rtx.iter().find(of_it).map(|it| it.0)
        };
        let red = self.red.first().copied();
        RtpPayloadTypes {
            media,
            rtx: sent_again_by(media),
            red,
            rtx_of_red: red.and_then(sent_again_by),
            fec: self.fec.first().copied(),
        }
    }

    /// Whether packets may be sent again.
    pub fn has_rtx(&self) -> bool {
        !self.rtx.is_empty()
    }

    /// Whether nothing is to be undone.
    pub fn are_plain(&self) -> bool {
        self.rtx.is_empty() && self.red.is_empty()
    }

    /// The payload type that packets of this one send again.
    pub fn sent_again_by(&self, payload_type: u8) -> Option<u8> {
        let of_it = |it: &&(u8, u8)| it.0 == payload_type;
        self.rtx.iter().find(of_it).map(|it| it.1)
    }

    pub fn is_red(&self, payload_type: u8) -> bool {
        self.red.contains(&payload_type)
    }

    pub fn is_fec(&self, payload_type: u8) -> bool {
        self.fec.contains(&payload_type)
    }

    /// The SSRC of the stream that the one of this SSRC sends again.
    pub fn original_ssrc(&self, ssrc: u32) -> Option<u32> {
        self.groups.iter().find(|it| it.1 == ssrc).map(|it| it.0)
    }

    /// Those that are undone, as options say them.
    pub fn in_options(&self) -> String {
        let rtx = self.rtx.iter().map(|(rtx, of)| format!("--rtx {rtx}={of}"));
        let red = self.red.iter().map(|it| format!("--red {it}"));
        rtx.chain(red).collect::<Vec<String>>().join(" ")
    }
}

#[cfg(test)]
mod tests {
    use super::*;

    /// The lines of RFC 4588, 8.6, of RFC 5576, 4.2, and of RFC 8852, 3.
    #[test]
    fn of_descriptions() {
        let lines = [
            "m=video 49170 RTP/AVPF 96 97 98 99",
            "a=rtpmap:96 H264/90000",
            "a=rtpmap:97 rtx/90000",
            "a=fmtp:97 apt=96;rtx-time=3000",
            "a=rtpmap:98 RED/90000",
            "a=fmtp:98 apt=128",
            "a=rtpmap:99 ulpfec/90000",
            "a=ssrc-group:FID 11 22",
            "a=extmap:4/sendonly urn:ietf:params:rtp-hdrext:sdes:rtp-stream-id",
            "a=extmap:5 urn:ietf:params:rtp-hdrext:sdes:repaired-rtp-stream-id",
        ];
        let types = PayloadTypes::of_media(&lines);
        assert_eq!(types.sent_again_by(97), Some(96));
        assert_eq!(types.sent_again_by(96), None);
        let of_stream = types.of_stream(96);
        assert_eq!((of_stream.rtx, of_stream.rtx_of_red), (Some(97), None));
        assert_eq!((of_stream.red, of_stream.fec), (Some(98), Some(99)));
        assert!(types.is_red(98) && types.is_fec(99) && !types.is_red(99));
        assert_eq!(types.original_ssrc(22), Some(11));
        assert_eq!(types.original_ssrc(11), None);
        assert_eq!((types.rid, types.repaired_rid), (Some(4), Some(5)));
        assert!(PayloadTypes::of_media(&lines[..2]).are_plain());
    }

    #[test]
    fn of_options() {
        let mut types = PayloadTypes::default();
        for value in ["97", "97=", "=96", "97=97", "128=96", "97=x"] {
            assert!(!types.read_rtx(value), "{value}");
        }
        assert!(types.are_plain() && types.read_rtx("97=96") && !types.are_plain());
        assert_eq!(types.sent_again_by(97), Some(96));
    }
}
