//! Numbers in the byte order of a file; 0 where the bytes end before.

fn bytes<const N: usize>(bytes: &[u8], at: usize) -> [u8; N] {
    let bytes = bytes.get(at..).and_then(|it| it.first_chunk());
    bytes.copied().unwrap_or([0; N])
}

pub fn half(from: &[u8], at: usize, is_big_endian: bool) -> u16 {
    let number = u16::from_be_bytes(bytes(from, at));
    if is_big_endian {
        number
    } else {
        number.swap_bytes()
    }
}

pub fn word(from: &[u8], at: usize, is_big_endian: bool) -> u32 {
    let number = u32::from_be_bytes(bytes(from, at));
    if is_big_endian {
        number
    } else {
        number.swap_bytes()
    }
}

pub fn long(from: &[u8], at: usize, is_big_endian: bool) -> u64 {
    let number = u64::from_be_bytes(bytes(from, at));
    if is_big_endian {
        number
    } else {
        number.swap_bytes()
    }
}
