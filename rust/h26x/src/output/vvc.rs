//! What a sequence parameter set of H.266 says of its pictures, and of profile, tier and level (H.266, 7.3.2.4, 7.3.3.1
//! and 7.3.3.2).

use crate::output::bits::Bits;
use crate::output::picture_size::{Picture, picture, subsampling, window};

/// How many constraints there are, if any (7.3.3.2), and how many bits tell how many more follow.
const CONSTRAINTS: usize = 71;
const MORE: usize = 8;
/// No level has more subpictures (H.266, table A.1: a slice has one at least).
const MOST_SUBPICTURES: u32 = 1000;

/// A sequence parameter set.
pub struct Sps {
    pub picture: Picture,
    /// Width and height as they are coded, before samples are cut off.
    pub coded: [u32; 2],
    pub sub_layers: u8,
    /// Profile, tier, level, constraints, levels of sub-layers and sub-profiles, as MP4 has them too (ISO/IEC 14496-15,
    /// 11.2.4.2), and how many bytes of these the constraints have.
    pub profile: Vec<u8>,
    pub constraints: u8,
}

/// Reads one, up to the bit depth; nothing where it ends before, or where a video parameter set has its profile.
pub fn read(sps: &[u8]) -> Option<Sps> {
    let mut bits = Bits::of(sps, 2);
    bits.skip(8);
    let sub_layers = bits.bits(3)?;
    let chroma = bits.bits(2)?;
    let block = 32 << bits.bits(2)?;
    if !bits.flag()? {
        return None;
    }
    let begin = bits.bytes_before();
    let constraints = pass_profile(&mut bits, sub_layers)?;
    let profile = bits.bytes().get(begin..bits.bytes_before())?.to_vec();
    bits.skip(1);
    let is_resampled = bits.flag()?;
    bits.skip(usize::from(is_resampled));
    let coded = [bits.number()?, bits.number()?];
    let (sub_width, sub_height) = subsampling(chroma);
    let crop = window(&mut bits, sub_width, sub_height)?;
    if bits.flag()? {
        pass_subpictures(&mut bits, coded.map(|it| it.div_ceil(block)))?;
    }
    let depth = bits.number()?;
    let [width, height] = coded.map(u64::from);
    Some(Sps {
        picture: picture(width, height, crop, [chroma, depth, depth])?,
        coded,
        sub_layers: sub_layers as u8 + 1,
        profile,
        constraints,
    })
}

/// Passes over profile, tier and level; how many bytes the constraints have.
fn pass_profile(bits: &mut Bits, sub_layers: u32) -> Option<u8> {
    bits.skip(16);
    let begin = bits.bytes_before();
    bits.skip(2);
    if bits.flag()? {
        bits.skip(CONSTRAINTS);
        let more = bits.bits(MORE)?;
        bits.skip(more as usize);
    }
    bits.align();
    let constraints = bits.bytes_before() - begin;
    let mut levels = 0;
    for _ in 0..sub_layers {
        levels += usize::from(bits.flag()?);
    }
    bits.align();
    bits.skip(8 * levels);
    let profiles = bits.bits(8)?;
    bits.skip(32 * profiles as usize);
    u8::try_from(constraints).ok()
}

/// Passes over subpictures, of pictures of so many blocks in width and height.
fn pass_subpictures(bits: &mut Bits, blocks: [u32; 2]) -> Option<()> {
    let lens = blocks.map(|it| (u32::BITS - it.saturating_sub(1).leading_zeros()) as usize);
    let last = bits.number().filter(|it| *it < MOST_SUBPICTURES)?;
    let (mut are_independent, mut is_same_size) = (true, true);
    if last > 0 {
        (are_independent, is_same_size) = (bits.flag()?, bits.flag()?);
    }
    for at in 0..=last {
        // (of one alone nothing is said)
        if last > 0 && (at == 0 || !is_same_size) {
            let place = usize::from(at > 0);
            let size = usize::from(at < last);
            bits.skip((place + size) * (lens[0] + lens[1]));
        }
        bits.skip(if are_independent { 0 } else { 2 });
    }
    let len = bits.number()? as usize + 1;
    if bits.flag()? && bits.flag()? {
        bits.skip((last as usize + 1) * len);
    }
    Some(())
}

#[cfg(test)]
mod tests {
    use super::*;

    /// A set of these bits, `e` before a number being its Exp-Golomb code, and a header.
    fn set(text: &str) -> Vec<u8> {
        let code = |word: &str| match word.strip_prefix('e') {
            Some(number) => {
                let number: u32 = number.parse().expect("a number");
                let len = number.checked_add(1).expect("a code").ilog2() as usize;
                format!("{}{:b}", "0".repeat(len), number + 1)
            }
            None => word.into(),
        };
        let bits: String = text.split_whitespace().map(code).collect();
        let byte = |bits: &[u8]| {
            let byte = bits.iter().fold(0, |byte, bit| byte << 1 | (bit - b'0'));
            byte << (8 - bits.len())
        };
        let bytes = bits.as_bytes().chunks(8).map(byte);
        [0, 0x79].into_iter().chain(bytes).collect()
    }

    /// One sub-layer, Main 10 at level 3.1, no constraints: 320 by 184, of which four lines are cut off, of ten bits.
    const PLAIN: &str = "0000 0000 000 01 10 1  0000001 0 00110011 1 0 0 00000 00000000
        0 0 e320 e184 1 e0 e0 e0 e2 0 e2 1";

    #[test]
    fn a_set_bit_by_bit() {
        let sps = read(&set(PLAIN)).expect("a set");
        let Picture { width, height, .. } = sps.picture;
        assert_eq!((width, height, sps.coded), (320, 180, [320, 184]));
        let Picture {
            chroma_format,
            more_luma_bits,
            ..
        } = sps.picture;
        assert_eq!((chroma_format, more_luma_bits, sps.sub_layers), (1, 2, 1));
        assert_eq!(
            (sps.constraints, &sps.profile[..]),
            (1, &[2, 0x33, 0x80, 0][..])
        );
        for len in 0..set(PLAIN).len() - 1 {
            assert!(read(&set(PLAIN)[..len]).is_none(), "{len}");
        }
        assert!(read(&set(&PLAIN.replacen("10 1", "10 0", 1))).is_none());
    }

    /// Three sub-layers, of which the lower ones have a level, 71 constraints and six more, a sub-profile; resampling;
    /// two subpictures of 1280 by 720 samples in blocks of 128: 10 by 6, so places have 4 and 3 bits.
    #[test]
    fn all_that_may_stand_before_the_depth() {
        let constraints = "10".repeat(35) + "1";
        let text = format!(
            "0000 0000 010 01 10 1  0000001 0 01010000 1 0 1 {constraints} 00000110 111111
             11 000000 00110011 01000000 00000001 11111111 00000000 11111111 00000001
             0 1 1 e1280 e720 0  1 e1 0 0  0100 101 1 1  0101 000 0 1  e0 1 1 0 1  e0 1"
        );
        // 2 + 1 + 71 + 8 + 6 bits of constraints are 11 bytes.
        let sps = read(&set(&text)).expect("a set");
        assert_eq!(
            (sps.constraints, sps.profile.len()),
            (11, 2 + 11 + 1 + 2 + 1 + 4)
        );
        assert_eq!((sps.picture.width, sps.picture.height), (1280, 720));
        assert_eq!((sps.picture.more_luma_bits, sps.sub_layers), (0, 3));
        assert_eq!(&sps.profile[13..], [0xc0, 0x33, 0x40, 1, 0xff, 0, 0xff, 1]);
    }
}
