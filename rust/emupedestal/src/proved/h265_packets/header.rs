// Made from crates/h265_packets/src/header.rt by tools/to-rust.

//! Headers made from others, and the fields of a PACI packet (RFC 7798, 1.1.4 and 4.4.4).

/// The first byte of a header with this F and this type; the highest bit of the layer is that of
/// another first byte (RFC 7798, 1.1.4).
///
/// # Panics
///
/// Unless `f < 2` and `nalu_type < 64`.
pub fn high_byte(f: u8, nalu_type: u8, layer_of: u8) -> u8 {
    assert!(f < 2);
    assert!(nalu_type < 64);
    f * 128 + nalu_type * 2 + (layer_of & 1)
}

/// A of a PACI packet's fields, the F of the unit within (RFC 7798, 4.4.4).
pub fn paci_f(fields: u16) -> u8 {
    (fields >> 15) as u8
}

/// cType of a PACI packet's fields, the type of the unit within (RFC 7798, 4.4.4).
pub fn paci_type(fields: u16) -> u8 {
    (fields >> 9 & 0x3f) as u8
}

/// PHSsize of a PACI packet's fields, the bytes of the extension (RFC 7798, 4.4.4).
pub fn paci_size(fields: u16) -> u8 {
    (fields >> 4 & 0x1f) as u8
}
