//! Why a packet is refused, and what it would have needed, in the words of the RFCs.

use emupedestal::access_units::unit_type;
use emupedestal::{Codec, PacketError};

/// Whether a refused packet bears nothing of the stream, so that nothing is lost by it: a type that carries no unit of it,
/// or an end of sequence or of the bitstream.
pub fn bears_no_unit(codec: Codec, packet: &[u8], error: PacketError) -> bool {
    match error {
        PacketError::NaluTypeIsNotHandled(_) => true,
        PacketError::ErrShortPacket => match (codec, packet) {
            (Codec::H265, [first, ..]) => matches!(first >> 1 & 0x3f, 36 | 37),
            (Codec::H266, [_, second, ..]) => matches!(second >> 3, 21 | 22),
            _ => false,
        },
        _ => false,
    }
}

/// What a refused packet would have needed.
pub fn reason(codec: Codec, packet: &[u8], error: PacketError) -> String {
    match error {
        PacketError::ErrShortPacket => short(codec, packet).into(),
        PacketError::NaluTypeIsNotHandled(packet_type) => not_handled(packet_type),
        PacketError::StapASizeLargerThanBuffer(len, left) => format!(
            "a STAP-A gives a NAL unit size of {len} bytes where {left} are left; each size must \
             be that of the NAL unit behind it (RFC 6184, 5.7.1)"
        ),
        PacketError::ErrH265CorruptedPacket => {
            "F, the forbidden_zero_bit of the payload header, is 1; it must be 0 (RFC 7798, 1.1.4)"
                .into()
        }
        PacketError::ErrH266CorruptedPacket if packet.first().is_some_and(|it| it & 0x80 != 0) => {
            "F, the forbidden_zero_bit of the payload header, is 1; it must be 0 (RFC 9328, 1.1.4)"
                .into()
        }
        PacketError::ErrH266CorruptedPacket => {
            "an AP holds an AP or an FU; it must hold NAL units as they are (RFC 9328, 4.3.2)"
                .into()
        }
        other => other.to_string(),
    }
}

/// What a packet that ends too early lacks.
fn short(codec: Codec, packet: &[u8]) -> &'static str {
    match (codec, unit_type(codec, packet)) {
        (Codec::H264, _) => {
            "an FU-A needs an FU indicator and an FU header, a byte each (RFC 6184, 5.8)"
        }
        (Codec::H265, _) if packet.len() < 3 => {
            "the payload has a header of two bytes at most, as an end of sequence has; a unit \
             needs a byte behind it to be taken (RFC 7798, 1.1.4)"
        }
        (Codec::H265, Some(48)) => {
            "an AP needs two NAL units or more, each whole behind its size, with DONL and DOND \
             where numbers are on (RFC 7798, 4.4.2)"
        }
        (Codec::H265, Some(49)) => {
            "an FU needs a byte of FU payload behind its FU header, and behind DONL where \
             numbers are on (RFC 7798, 4.4.3)"
        }
        (Codec::H265, Some(50)) => {
            "a PACI packet needs its fields of two bytes, PHSsize bytes of PHES, and a byte of \
             payload (RFC 7798, 4.4.4)"
        }
        (Codec::H265, _) => {
            "a single NAL unit packet with numbers needs DONL and a byte behind it (RFC 7798, \
             4.4.1)"
        }
        (Codec::H266, _) if packet.len() < 3 => {
            "the payload has a header of two bytes at most, as an end of sequence has; a unit \
             needs a byte behind it to be taken (RFC 9328, 1.1.4)"
        }
        (Codec::H266, Some(28)) => {
            "an AP needs two NAL units or more, each whole behind its size, with DONL where \
             numbers are on (RFC 9328, 4.3.2)"
        }
        (Codec::H266, Some(29)) => {
            "an FU needs a byte of FU payload behind its FU header, and behind DONL where \
             numbers are on (RFC 9328, 4.3.3)"
        }
        (Codec::H266, _) => {
            "a single NAL unit packet with numbers needs DONL and a byte behind it (RFC 9328, \
             4.3.1)"
        }
    }
}

fn not_handled(packet_type: u8) -> String {
    let name = match packet_type {
        25 => "a STAP-B",
        26 => "an MTAP16",
        27 => "an MTAP24",
        29 => "an FU-B",
        _ => {
            return format!(
                "type {packet_type} is undefined or reserved; a payload needs type 1 to 23, 24 \
                 (STAP-A) or 28 (FU-A) (RFC 6184, 5.2)"
            );
        }
    };
    format!(
        "{name}, type {packet_type}, is of the interleaved mode; the stream needs \
         packetization-mode 0 or 1 (RFC 6184, 5.4)"
    )
}
