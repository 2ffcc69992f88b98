// Made from crates/h26x_fmtp/src/names.rt by tools/to-rust.

//! Names, whose case doesn't count.

/// Whether two names are one, without regard to case (RFC 4855, section 3).
pub fn same_name(a: &[u8], b: &[u8]) -> bool {
    a.eq_ignore_ascii_case(b)
}
