//! The boxes of an MP4 file (ISO/IEC 14496-12; 14496-15, 5.3, 8.3 and 11.2).

/// A box that is written behind others, and which `fill` fills.
pub fn put(to: &mut Vec<u8>, name: &[u8; 4], fill: impl FnOnce(&mut Vec<u8>)) {
    let begin = to.len();
    to.extend([0; 4]);
    to.extend(name);
    fill(to);
    let len = (to.len() - begin) as u32;
    to[begin..begin + 4].copy_from_slice(&len.to_be_bytes());
}

/// A box with a version and flags.
pub fn put_full(
    to: &mut Vec<u8>,
    name: &[u8; 4],
    version: u8,
    flags: u32,
    fill: impl FnOnce(&mut Vec<u8>),
) {
    put(to, name, |to| {
        to.extend((u32::from(version) << 24 | flags).to_be_bytes());
        fill(to);
    });
}

pub fn words(to: &mut Vec<u8>, words: &[u32]) {
    to.extend(words.iter().flat_map(|it| it.to_be_bytes()));
}

pub fn halves(to: &mut Vec<u8>, halves: &[u16]) {
    to.extend(halves.iter().flat_map(|it| it.to_be_bytes()));
}
