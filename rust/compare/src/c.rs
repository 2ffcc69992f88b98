//! The other side: the proved library by the calls of its header, with slices for pointers.

use crate::log::{Outcome, Part, Received, Shows};
use header::*;

/// A handle, and the call that frees it.
pub struct End {
    raw: Raw,
    free: unsafe extern "C" fn(Raw),
}

impl Drop for End {
    fn drop(&mut self) {
        // SAFETY: the handle is live, and freed here alone.
        unsafe { (self.free)(self.raw) }
    }
}

/// The handle that a call writes into the room that it is given; its code where it writes none.
fn made(free: unsafe extern "C" fn(Raw), make: impl FnOnce(&mut Raw) -> u32) -> Result<End, u32> {
    let mut raw = Raw::room();
    match make(&mut raw) {
        0 => Ok(End { raw, free }),
        code => Err(code),
    }
}

pub fn packetizer(codec: u32, numbers: bool) -> End {
    // SAFETY: there is room for a handle, here and below.
    let new = |raw: &mut Raw| unsafe { h26x_packetizer_new(codec, numbers, raw) };
    made(h26x_packetizer_free, new).expect("a handle")
}

pub fn depacketizer(codec: u32, numbers: bool) -> End {
    let new = |raw: &mut Raw| unsafe { h26x_depacketizer_new(codec, numbers, raw) };
    made(h26x_depacketizer_free, new).expect("a handle")
}

pub fn receiver(codec: u32, numbers: bool, avc: bool, run_limit: usize) -> End {
    let new = |raw: &mut Raw| unsafe { h26x_receiver_new(codec, numbers, avc, run_limit, raw) };
    made(h26x_receiver_free, new).expect("a handle")
}

pub fn access_units(config: &Config) -> End {
    let new = |raw: &mut Raw| unsafe { h26x_access_units_new(config, raw) };
    made(h26x_access_units_free, new).expect("a handle")
}

/// Parameters of SDP, or the code and the place of a fault.
pub fn sdp(codec: u32, text: &[u8]) -> Result<End, (u32, usize)> {
    let mut why = Refusal::default();
    let read =
        |raw: &mut Raw| unsafe { h26x_sdp_read(codec, text.as_ptr(), text.len(), raw, &mut why) };
    made(h26x_sdp_free, read).map_err(|code| (code, why.first))
}

pub fn sdp_of_payload(codec: u32, payload: &[u8]) -> Result<End, u32> {
    let (at, len) = (payload.as_ptr(), payload.len());
    made(h26x_sdp_free, |raw| unsafe {
        h26x_sdp_of_payload(codec, at, len, raw)
    })
}

// SAFETY, of each call below: the handle is live and of that kind, and lent to the call; each pointer and length are
// those of one slice, apart from the others; and each output is a number or a struct of its own.
impl End {
    /// The same packetizer again.
    pub fn packetizer_again(&self) -> End {
        let clone = |raw: &mut Raw| unsafe { h26x_packetizer_clone(&self.raw, raw) };
        made(self.free, clone).expect("a handle")
    }

    pub fn depacketizer_again(&self) -> End {
        let clone = |raw: &mut Raw| unsafe { h26x_depacketizer_clone(&self.raw, raw) };
        made(self.free, clone).expect("a handle")
    }

    pub fn receiver_again(&self) -> End {
        let clone = |raw: &mut Raw| unsafe { h26x_receiver_clone(&self.raw, raw) };
        made(self.free, clone).expect("a handle")
    }

    pub fn is_same(&self, other: &End) -> bool {
        unsafe { h26x_depacketizer_same(&self.raw, &other.raw) }
    }

    /// Of packetizers. H.264 has no numbers, and answers that.
    pub fn send_numbers(&mut self, numbers: bool) {
        unsafe { h26x_packetizer_set_numbers(&mut self.raw, numbers) };
    }

    /// Those of H.265 and H.266; that of H.264 answers that it has none.
    pub fn lowest_header(&mut self, lowest: bool) {
        unsafe { h26x_packetizer_set_lowest_header(&mut self.raw, lowest) };
    }

    pub fn max_size(&mut self, bytes: u16) {
        unsafe { h26x_packetizer_set_max_size(&mut self.raw, bytes) };
    }

    pub fn take_numbers(&mut self, numbers: bool) {
        unsafe { h26x_depacketizer_set_numbers(&mut self.raw, numbers) };
    }

    pub fn receive_numbers(&mut self, numbers: bool) {
        unsafe { h26x_receiver_set_numbers(&mut self.raw, numbers) };
    }

    pub fn receive_avc(&mut self, avc: bool) {
        unsafe { h26x_receiver_set_avc(&mut self.raw, avc) };
    }

    pub fn give_up_run(&mut self) {
        unsafe { h26x_give_up_run(&mut self.raw) };
    }

    pub fn restart(&mut self) {
        unsafe { h26x_receiver_restart(&mut self.raw) };
    }

    pub fn run_len(&self) -> usize {
        unsafe { h26x_receiver_run_len(&self.raw) }
    }

    /// How many packets there would be of a payload, and how many bytes with headroom.
    pub fn packets_size(&self, mtu: usize, b: &[u8], headroom: usize) -> (u32, usize, usize) {
        let (mut count, mut size) = (0, 0);
        let code = unsafe {
            h26x_packets_size(
                &self.raw,
                mtu,
                b.as_ptr(),
                b.len(),
                headroom,
                &mut count,
                &mut size,
            )
        };
        (code, count, size)
    }

    /// The code, the packets of a payload or of one unit, and where each ends behind headroom.
    pub fn packets(
        &mut self,
        is_unit: bool,
        mtu: usize,
        b: &[u8],
        headroom: usize,
    ) -> (u32, Vec<Vec<u8>>, Vec<usize>) {
        let make = if is_unit {
            h26x_packetize_unit_into
        } else {
            h26x_packetize_into
        };
        let (mut to, mut ends) = (vec![0; 400], vec![0; 8]);
        loop {
            let (mut count, mut size) = (0, 0);
            let (at, len) = (b.as_ptr(), b.len());
            let (bytes, room, places, most) =
                (to.as_mut_ptr(), to.len(), ends.as_mut_ptr(), ends.len());
            let p = &mut self.raw;
            let code = unsafe {
                make(
                    p, mtu, at, len, headroom, bytes, room, places, most, &mut count, &mut size,
                )
            };
            if code == NO_ROOM {
                to.resize(size, 0);
                ends.resize(count, 0);
                continue;
            }
            ends.truncate(count);
            let begins = std::iter::once(&0).chain(&ends);
            let packets = begins
                .zip(&ends)
                .map(|(begin, end)| to[begin + headroom..*end].to_vec());
            return (code, packets.collect(), ends);
        }
    }

    /// Appends what the last packet completed: it stands in `to`, or had no room there.
    fn append(&self, written: usize, mut to: Vec<u8>, out: &mut Vec<u8>) {
        if written > to.len() {
            to.resize(written, 0);
            unsafe { h26x_written_copy(&self.raw, to.as_mut_ptr(), written) };
        }
        out.extend_from_slice(&to[..written]);
    }

    pub fn depacketize(
        &mut self,
        avc: bool,
        packet: &[u8],
        out: &mut Vec<u8>,
        extra: &mut u8,
    ) -> Outcome {
        let (mut to, mut written, mut why) = (vec![0; 64], 0, Refusal::default());
        let (at, len, d) = (packet.as_ptr(), packet.len(), &mut self.raw);
        let code = unsafe {
            h26x_depacketize(
                d,
                avc,
                at,
                len,
                to.as_mut_ptr(),
                to.len(),
                &mut written,
                extra,
                &mut why,
            )
        };
        self.append(written, to, out);
        (code, why.first, why.second)
    }

    pub fn receive(
        &mut self,
        number: u16,
        packet: &[u8],
        out: &mut Vec<u8>,
        extra: &mut u8,
    ) -> Result<Received, Outcome> {
        let (mut to, mut written, mut why) = (vec![0; 64], 0, Refusal::default());
        let (at, len, r) = (packet.as_ptr(), packet.len(), &mut self.raw);
        let (bytes, room, mut became) = (to.as_mut_ptr(), to.len(), (0, 0));
        let (received, count) = (&mut became.0, &mut became.1);
        let code = unsafe {
            h26x_receive(
                r,
                number,
                at,
                len,
                bytes,
                room,
                &mut written,
                extra,
                received,
                count,
                &mut why,
            )
        };
        self.append(written, to, out);
        if code == 0 {
            Ok(became)
        } else {
            Err((code, why.first, why.second))
        }
    }

    pub fn skip(&mut self, number: u16) -> Received {
        let mut became = (0, 0);
        unsafe { h26x_receiver_skip(&mut self.raw, number, &mut became.0, &mut became.1) };
        became
    }

    /// What an end of H.265 shows.
    pub fn shown(&self) -> Option<Shows> {
        let mut shown = Shown::default();
        let code = unsafe { h26x_h265_shown(&self.raw, &mut shown) };
        (code == 0).then(|| {
            let parts = (0..shown.parts).map(|i| self.part(i)).collect();
            (shown.kind, shown.header, shown.word, parts)
        })
    }

    fn part(&self, i: usize) -> Part {
        let (mut bytes, mut number) = (Vec::new(), 0);
        let len = unsafe { h26x_h265_part_copy(&self.raw, i, bytes.as_mut_ptr(), 0, &mut number) };
        bytes.resize(len, 0);
        unsafe { h26x_h265_part_copy(&self.raw, i, bytes.as_mut_ptr(), len, &mut number) };
        (u16::try_from(number).ok(), bytes)
    }

    /// The code, what became of a packet, and how far it is behind.
    pub fn push(
        &mut self,
        now: u32,
        (sequence, timestamp, marker, payload): (u16, u32, bool, &[u8]),
    ) -> (u32, u32, u16) {
        let (mut pushed, mut behind, u) = (0, 0, &mut self.raw);
        let (at, len) = (payload.as_ptr(), payload.len());
        let code = unsafe {
            h26x_access_units_push(
                u,
                now,
                sequence,
                timestamp,
                marker,
                at,
                len,
                &mut pushed,
                &mut behind,
            )
        };
        (code, pushed, behind)
    }

    pub fn skip_unit_packet(&mut self, now: u32, sequence: u16) -> (u32, u32, u16) {
        let (mut pushed, mut behind) = (0, 0);
        let code = unsafe {
            h26x_access_units_skip(&mut self.raw, now, sequence, &mut pushed, &mut behind)
        };
        (code, pushed, behind)
    }

    /// The next access unit and its bytes.
    pub fn next_unit(&mut self, now: u32) -> Option<(Unit, Vec<u8>)> {
        let (mut unit, mut bytes) = (Unit::default(), vec![0; 100]);
        loop {
            let code = unsafe {
                h26x_access_units_next(
                    &mut self.raw,
                    now,
                    bytes.as_mut_ptr(),
                    bytes.len(),
                    &mut unit,
                )
            };
            match code {
                NO_ROOM => bytes.resize(unit.len, 0),
                0 => {
                    bytes.truncate(unit.len);
                    return Some((unit, bytes));
                }
                _ => return None,
            }
        }
    }

    pub fn deadline(&self) -> Option<u32> {
        let mut at = 0;
        unsafe { h26x_access_units_deadline(&self.raw, &mut at) }.then_some(at)
    }

    pub fn missing(&self) -> Vec<u16> {
        let (mut numbers, mut count) = (vec![0; 1 << 16], 0);
        unsafe {
            h26x_access_units_missing(&self.raw, numbers.as_mut_ptr(), numbers.len(), &mut count)
        };
        numbers.truncate(count);
        numbers
    }

    /// Whether the number of the first packet is told in time.
    pub fn begin_at(&mut self, sequence: u16) -> bool {
        let mut in_time = 0;
        unsafe { h26x_access_units_begin_at(&mut self.raw, sequence, &mut in_time) };
        in_time == 1
    }

    pub fn finish(&mut self) {
        unsafe { h26x_access_units_finish(&mut self.raw) };
    }

    pub fn restart_units(&mut self) {
        unsafe { h26x_access_units_restart(&mut self.raw) };
    }

    pub fn counts(&self) -> [u64; 15] {
        let mut counts = [0; 15];
        unsafe { h26x_access_units_count(&self.raw, &mut counts) };
        counts
    }

    /// The text of parameters, written into room that is used again.
    pub fn text_in<'a>(&self, room: &'a mut Vec<u8>) -> &'a [u8] {
        let mut len = 0;
        while unsafe { h26x_sdp_write(&self.raw, room.as_mut_ptr(), room.len(), &mut len) }
            == NO_ROOM
        {
            room.resize(len.max(1000), 0);
        }
        &room[..len]
    }

    /// The text of parameters.
    pub fn text(&self) -> String {
        let mut room = vec![0; 1000];
        let len = self.text_in(&mut room).len();
        room.truncate(len);
        String::from_utf8(room).expect("text")
    }

    /// Gives a parameter a value; the code.
    pub fn set(&mut self, name: &str, value: &str) -> u32 {
        let (at, len) = (value.as_ptr(), value.len());
        unsafe { h26x_sdp_set(&mut self.raw, name.as_ptr(), name.len(), at, len) }
    }

    /// Takes it away; the code.
    pub fn unset(&mut self, name: &str) -> u32 {
        unsafe { h26x_sdp_unset(&mut self.raw, name.as_ptr(), name.len()) }
    }

    /// The answer to these parameters by ours.
    pub fn answer(&self, ours: &End) -> Option<End> {
        made(self.free, |raw| unsafe {
            h26x_sdp_answer(&self.raw, &ours.raw, raw)
        })
        .ok()
    }

    /// The same of units in any order.
    pub fn answer_any_order(&self, ours: &End) -> Option<End> {
        made(self.free, |raw| unsafe {
            h26x_sdp_answer_any_order(&self.raw, &ours.raw, raw)
        })
        .ok()
    }

    /// The same as WebRTC's peers do it, of units in decoding order or in any.
    pub fn answer_webrtc(&self, ours: &End, any_order: bool) -> Option<End> {
        made(self.free, |raw| unsafe {
            h26x_sdp_answer_webrtc(&self.raw, &ours.raw, any_order, raw)
        })
        .ok()
    }

    /// The same by options.
    pub fn answer_with(&self, ours: &End, options: u32) -> Option<End> {
        made(self.free, |raw| unsafe {
            h26x_sdp_answer_with(&self.raw, &ours.raw, options, raw)
        })
        .ok()
    }

    /// What is agreed by these parameters and another end's, by options.
    pub fn agreed(&self, other: &End, options: u32) -> [Stream; 2] {
        let [mut sends, mut receives] = [Stream::default(); 2];
        let code =
            unsafe { h26x_sdp_agreed(&self.raw, &other.raw, options, &mut sends, &mut receives) };
        assert_eq!(code, 0);
        [sends, receives]
    }

    /// Whether ours receives these parameters as they are.
    pub fn is_accepted(&self, ours: &End, options: u32) -> bool {
        unsafe { h26x_sdp_accepts_declared(&self.raw, &ours.raw, options) == 0 }
    }
}

// SAFETY, of each: the pointer and the length are those of one slice.
pub fn is_head(codec: u32, packet: &[u8]) -> bool {
    unsafe { h26x_is_partition_head(codec, packet.as_ptr(), packet.len()) }
}

pub fn is_tail(codec: u32, marker: bool, packet: &[u8]) -> bool {
    unsafe { h26x_is_partition_tail(codec, marker, packet.as_ptr(), packet.len()) }
}

pub fn detect(codec: u32, packet: &[u8]) -> bool {
    unsafe { h26x_detect_keyframe(codec, packet.as_ptr(), packet.len()) }
}

pub fn detect_type(packet: &[u8], nalu_type: u8) -> bool {
    unsafe { h26x_detect_h264_nalu(packet.as_ptr(), packet.len(), nalu_type) }
}

pub fn is_plain(codec: u32, unit: &[u8]) -> bool {
    unsafe { h26x_unit_is_plain(codec, unit.as_ptr(), unit.len()) }
}

/// A packet whose header is that of its lowest unit.
pub fn with_lowest_header(codec: u32, numbers: bool, mut packet: Vec<u8>) -> Vec<u8> {
    unsafe { h26x_set_lowest_header(codec, numbers, packet.as_mut_ptr(), packet.len()) };
    packet
}

/// The units of a payload.
pub fn units(codec: u32, payload: &[u8]) -> Vec<&[u8]> {
    let (mut units, mut begin, mut end) = (Vec::new(), 0, 0);
    while unsafe {
        h26x_next_unit(
            codec,
            payload.as_ptr(),
            payload.len(),
            end,
            &mut begin,
            &mut end,
        )
    } {
        units.push(&payload[begin..end]);
    }
    units
}

pub fn paci(unit: &[u8], extension: &[u8]) -> Result<Vec<u8>, u32> {
    let (mut packet, mut len) = (vec![0; unit.len() + extension.len() + 4], 0);
    let (at, behind) = (extension.as_ptr(), extension.len());
    let (to, room) = (packet.as_mut_ptr(), packet.len());
    let code =
        unsafe { h26x_h265_paci_packet(unit.as_ptr(), unit.len(), at, behind, to, room, &mut len) };
    packet.truncate(len);
    if code == 0 { Ok(packet) } else { Err(code) }
}

pub fn size_hint(packets: usize) -> usize {
    unsafe { h26x_out_size_hint(packets) }
}

/// The numbers of a profile and a level of H.264.
pub fn h264_profile(id: u32) -> Option<(u8, u8)> {
    let (mut profile, mut level) = (0, 0);
    unsafe { h26x_h264_profile_level(id, &mut profile, &mut level) }.then_some((profile, level))
}

/// Whether three numbers of H.265 are known, and of H.266.
pub fn is_known((profile, tier, level): (u8, u8, u8)) -> [bool; 2] {
    unsafe {
        [
            h26x_h265_is_known(profile, tier, level),
            h26x_h266_is_known(profile, tier, level),
        ]
    }
}
