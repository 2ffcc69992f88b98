//! What a sequence parameter set says of pictures (H.264, 7.3.2.1.1; H.265, 7.3.2.2).

use crate::output::bits::Bits;

/// The size of pictures in samples, and how samples are.
#[derive(Clone, Copy, Debug, PartialEq, Eq)]
pub struct Picture {
    pub width: u16,
    pub height: u16,
    pub chroma_format: u8,
    /// How many bits more than eight samples have.
    pub more_luma_bits: u8,
    pub more_chroma_bits: u8,
}

/// Profiles of H.264 that say how samples are.
pub const HIGH: [u32; 13] = [100, 110, 122, 244, 44, 83, 86, 118, 128, 138, 139, 134, 135];

pub fn of_h264(sps: &[u8]) -> Option<Picture> {
    let mut bits = Bits::of(sps, 1);
    let profile = bits.bits(8)?;
    bits.skip(16);
    bits.number()?;
    let (mut chroma, mut luma_bits, mut chroma_bits) = (1, 0, 0);
    if HIGH.contains(&profile) {
        chroma = bits.number()?;
        bits.skip(usize::from(chroma == 3));
        (luma_bits, chroma_bits) = (bits.number()?, bits.number()?);
        bits.skip(1);
        if bits.flag()? {
            pass_scaling(&mut bits, if chroma == 3 { 12 } else { 8 })?;
        }
    }
    bits.number()?;
    pass_order(&mut bits)?;
    bits.number()?;
    bits.skip(1);
    let width = 16 * (u64::from(bits.number()?) + 1);
    let map_height = u64::from(bits.number()?) + 1;
    let fields = if bits.flag()? { 1 } else { 2 };
    bits.skip(if fields == 2 { 2 } else { 1 });
    let (sub_width, sub_height) = subsampling(chroma);
    let crop = window(&mut bits, sub_width, sub_height * fields)?;
    picture(
        width,
        16 * map_height * fields,
        crop,
        [chroma, luma_bits, chroma_bits],
    )
}

/// Passes over lists of scaling factors (H.264, 7.3.2.1.1.1).
fn pass_scaling(bits: &mut Bits, lists: usize) -> Option<()> {
    for list in 0..lists {
        if !bits.flag()? {
            continue;
        }
        let (mut last, mut next) = (8, 8);
        for _ in 0..if list < 6 { 16 } else { 64 } {
            if next != 0 {
                next = (last + bits.signed()? + 256).rem_euclid(256);
            }
            last = if next == 0 { last } else { next };
        }
    }
    Some(())
}

/// Passes over what says the order of pictures.
fn pass_order(bits: &mut Bits) -> Option<()> {
    match bits.number()? {
        0 => drop(bits.number()?),
        1 => {
            bits.skip(1);
            bits.number()?;
            bits.number()?;
            for _ in 0..bits.number()?.min(255) {
                bits.number()?;
            }
        }
        _ => {}
    }
    Some(())
}

pub fn of_h265(sps: &[u8]) -> Option<Picture> {
    let mut bits = Bits::of(sps, 2);
    bits.skip(4);
    let sub_layers = bits.bits(3)?;
    bits.skip(1 + 96);
    pass_sub_layers(&mut bits, sub_layers)?;
    bits.number()?;
    let chroma = bits.number()?;
    bits.skip(usize::from(chroma == 3));
    let (width, height) = (bits.number()?.into(), bits.number()?.into());
    let (sub_width, sub_height) = subsampling(chroma);
    let crop = window(&mut bits, sub_width, sub_height)?;
    let depths = [chroma, bits.number()?, bits.number()?];
    picture(width, height, crop, depths)
}

/// Passes over profiles and levels of sub-layers (H.265, 7.3.3).
fn pass_sub_layers(bits: &mut Bits, count: u32) -> Option<()> {
    if count == 0 {
        return Some(());
    }
    let mut len = 0;
    for _ in 0..count {
        len += if bits.flag()? { 88 } else { 0 };
        len += if bits.flag()? { 8 } else { 0 };
    }
    bits.skip(2 * (8 - count as usize) + len);
    Some(())
}

/// How many samples of luma stand beside and above one of chroma.
pub fn subsampling(chroma_format: u32) -> (u64, u64) {
    match chroma_format {
        1 => (2, 2),
        2 => (2, 1),
        _ => (1, 1),
    }
}

/// How many samples are cut off in all of width and height.
pub fn window(bits: &mut Bits, unit_x: u64, unit_y: u64) -> Option<(u64, u64)> {
    if !bits.flag()? {
        return Some((0, 0));
    }
    let mut next = || bits.number().map(u64::from);
    let (left, right, top, bottom) = (next()?, next()?, next()?, next()?);
    Some(((left + right) * unit_x, (top + bottom) * unit_y))
}

pub fn picture(width: u64, height: u64, crop: (u64, u64), samples: [u32; 3]) -> Option<Picture> {
    let [chroma_format, luma, chroma] =
        samples.map(|it| u8::try_from(it).ok().filter(|it| *it < 8));
    Some(Picture {
        width: u16::try_from(width.checked_sub(crop.0)?).ok()?,
        height: u16::try_from(height.checked_sub(crop.1)?).ok()?,
        chroma_format: chroma_format?,
        more_luma_bits: luma?,
        more_chroma_bits: chroma?,
    })
}

#[cfg(test)]
mod tests {
    use super::*;

    /// Sets of x264 and x265, which were asked for 322 by 182 samples, and for 322 by 180 of two fields, 4:2:2 and
    /// ten bits.
    #[test]
    fn sets_of_encoders() {
        let plain = [
            0x67, 0x64, 0, 0xd, 0xac, 0xd9, 0x41, 0x51, 0x9e, 0x22, 0x6c, 4, 0x40, 0, 0, 3, 0,
            0x40, 0, 0, 0xc, 0x83, 0xc5, 0xa, 0x65, 0x80,
        ];
        let fields = [
            0x67, 0x7a, 0, 0x15, 0xb6, 0xcd, 0x94, 0x15, 0x33, 0xc4, 0x4f, 0x80, 0x88, 0, 0, 3, 0,
            8, 0, 0, 3, 1, 0x90, 0xf8, 0xa1, 0x4c, 0xb0,
        ];
        let hevc = [
            0x42, 1, 1, 1, 0x60, 0, 0, 3, 0, 0x90, 0, 0, 3, 0, 0, 3, 0, 0x3c, 0xa0, 0xa, 0x48, 0xb,
            0x9c, 0x95, 0x96, 0x56, 0x59, 0x24, 0xca, 0xf0, 0x16, 0x80, 0x80, 0, 0, 3, 0, 0x80, 0,
            0, 0xc, 0x84,
        ];
        let picture = |width, height, chroma_format, more| {
            Some(Picture {
                width,
                height,
                chroma_format,
                more_luma_bits: more,
                more_chroma_bits: more,
            })
        };
        assert_eq!(of_h264(&plain), picture(322, 182, 1, 0));
        assert_eq!(of_h264(&fields), picture(322, 180, 2, 2));
        assert_eq!(of_h265(&hevc), picture(322, 182, 1, 0));
        for len in 0..8 {
            assert_eq!(
                (of_h264(&plain[..len]), of_h265(&hevc[..len])),
                (None, None)
            );
        }
    }

    /// A baseline set, bit by bit, whose order of pictures is of type 1: 2 by 3 macroblocks, of which 2 samples are
    /// cut off at the right, and 4 below.
    #[test]
    fn a_set_bit_by_bit() {
        let text = "1 1 010 1 00100 010 011 1 010 010 0 010 011 1 1 1 1 010 1 011 1";
        let bits: Vec<u8> = text
            .bytes()
            .filter(|it| *it != b' ')
            .map(|it| it - b'0')
            .collect();
        let mut set = vec![0x67, 66, 0, 10];
        for bits in bits.chunks(8) {
            let byte = bits.iter().fold(0, |byte, bit| byte << 1 | bit);
            set.push(byte << (8 - bits.len()));
        }
        let picture = of_h264(&set).expect("a picture");
        assert_eq!((picture.width, picture.height), (30, 44));
    }
}
