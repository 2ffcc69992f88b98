//! The front of a fragmented MP4 file: what the track is, and that fragments follow.

use crate::output::bits::Bits;
use crate::output::boxes::{halves, put, put_full, words};
use crate::output::picture_size::{self, HIGH, Picture};
use crate::output::vvc;
use emupedestal::Codec;
use emupedestal::access_units::unit_type;

/// How many ticks a second the track counts.
pub const TIME_SCALE: u32 = 90_000;
/// A turn by nothing (14496-12, 8.2.2).
const MATRIX: [u32; 9] = [0x1_0000, 0, 0, 0, 0x1_0000, 0, 0, 0, 0x4000_0000];
/// So many sets of a kind are named at most.
const MOST: usize = 15;

/// The parameter sets of a stream, each once.
pub struct Track<'a> {
    pub codec: Codec,
    pub sets: &'a [Vec<u8>],
}

impl Track<'_> {
    fn of_type(&self, wanted: u8) -> impl Iterator<Item = &Vec<u8>> {
        let sets = self.sets.iter();
        let is_it = move |it: &&Vec<u8>| unit_type(self.codec, it) == Some(wanted);
        sets.filter(is_it).take(MOST)
    }

    /// What pictures are; nothing where no sequence parameter set says it.
    fn picture(&self) -> Option<Picture> {
        match self.codec {
            Codec::H264 => self.of_type(7).find_map(|it| picture_size::of_h264(it)),
            Codec::H265 => self.of_type(33).find_map(|it| picture_size::of_h265(it)),
            Codec::H266 => self
                .of_type(15)
                .find_map(|it| vvc::read(it).map(|it| it.picture)),
        }
    }

    /// The front of the file; nothing where parameter sets are missing.
    pub fn front(&self) -> Option<Vec<u8>> {
        let picture = self.picture()?;
        let config = match self.codec {
            Codec::H264 => self.avc(&picture)?,
            Codec::H265 => self.hevc(&picture)?,
            Codec::H266 => self.vvc()?,
        };
        let mut front = Vec::new();
        put(&mut front, b"ftyp", |to| {
            to.extend(b"iso6\0\0\0\x01iso6mp41");
        });
        put(&mut front, b"moov", |to| {
            put_full(to, b"mvhd", 0, 0, |to| {
                words(to, &[0, 0, 1000, 0, 0x1_0000, 0x100_0000, 0, 0]);
                words(to, &MATRIX);
                words(to, &[0, 0, 0, 0, 0, 0, 2]);
            });
            put(to, b"trak", |to| self.track(to, &picture, &config));
            put(to, b"mvex", |to| {
                put_full(to, b"trex", 0, 0, |to| words(to, &[1, 1, 0, 0, 0]));
            });
        });
        Some(front)
    }

    fn track(&self, to: &mut Vec<u8>, picture: &Picture, config: &[u8]) {
        let size = [picture.width, picture.height].map(|it| u32::from(it) << 16);
        put_full(to, b"tkhd", 0, 7, |to| {
            words(to, &[0, 0, 1, 0, 0, 0, 0, 0, 0]);
            words(to, &MATRIX);
            words(to, &size);
        });
        put(to, b"mdia", |to| {
            put_full(to, b"mdhd", 0, 0, |to| {
                // The language isn't known.
                words(to, &[0, 0, TIME_SCALE, 0, 0x55c4_0000]);
            });
            put_full(to, b"hdlr", 0, 0, |to| {
                to.extend(b"\0\0\0\0vide\0\0\0\0\0\0\0\0\0\0\0\0video\0")
            });
            put(to, b"minf", |to| {
                put_full(to, b"vmhd", 0, 1, |to| words(to, &[0, 0]));
                put(to, b"dinf", |to| {
                    put_full(to, b"dref", 0, 0, |to| {
                        words(to, &[1]);
                        put_full(to, b"url ", 0, 1, |_| {});
                    });
                });
                put(to, b"stbl", |to| self.tables(to, picture, config));
            });
        });
    }

    /// The tables of samples, which are empty, since these are in fragments.
    fn tables(&self, to: &mut Vec<u8>, picture: &Picture, config: &[u8]) {
        // Parameter sets stand among the samples too.
        let (entry, name) = match self.codec {
            Codec::H264 => (b"avc3", b"avcC"),
            Codec::H265 => (b"hev1", b"hvcC"),
            Codec::H266 => (b"vvi1", b"vvcC"),
        };
        put_full(to, b"stsd", 0, 0, |to| {
            words(to, &[1]);
            put(to, entry, |to| {
                words(to, &[0, 1, 0, 0, 0, 0]);
                halves(to, &[picture.width, picture.height]);
                words(to, &[0x48_0000, 0x48_0000, 0]);
                halves(to, &[1]);
                to.extend([0; 32]);
                halves(to, &[24, 0xffff]);
                put(to, name, |to| to.extend(config));
            });
        });
        for name in [b"stts", b"stsc", b"stco"] {
            put_full(to, name, 0, 0, |to| words(to, &[0]));
        }
        put_full(to, b"stsz", 0, 0, |to| words(to, &[0, 0]));
    }

    /// ISO/IEC 14496-15, 5.3.3.1.
    fn avc(&self, picture: &Picture) -> Option<Vec<u8>> {
        let first = self.of_type(7).next()?;
        let [_, profile, compatible, level, ..] = first[..] else {
            return None;
        };
        let mut config = vec![1, profile, compatible, level, 0xff];
        for (kind, marks) in [(7, 0xe0), (8, 0)] {
            let sets: Vec<&Vec<u8>> = self.of_type(kind).filter(|it| it.len() <= 0xffff).collect();
            if sets.is_empty() {
                return None;
            }
            config.push(marks | sets.len() as u8);
            put_sets(&mut config, &sets);
        }
        if HIGH[..3].contains(&profile.into()) || profile == 144 {
            let depths = [picture.more_luma_bits, picture.more_chroma_bits];
            config.extend([
                0xfc | picture.chroma_format,
                0xf8 | depths[0],
                0xf8 | depths[1],
                0,
            ]);
        }
        Some(config)
    }

    /// ISO/IEC 14496-15, 8.3.3.1; profile, tier and level are those of the first set.
    fn hevc(&self, picture: &Picture) -> Option<Vec<u8>> {
        let bits = Bits::of(self.of_type(33).next()?, 2);
        let [first, profile @ ..] = bits.bytes().first_chunk::<13>()?;
        let mut config = vec![1];
        config.extend(profile);
        config.extend([0xf0, 0, 0xfc, 0xfc | picture.chroma_format]);
        config.extend([
            0xf8 | picture.more_luma_bits,
            0xf8 | picture.more_chroma_bits,
            0,
            0,
        ]);
        let layers = (first >> 1 & 7) + 1;
        config.push(layers << 3 | (first & 1) << 2 | 3);
        config.push(3);
        for kind in [32, 33, 34] {
            self.put_array(kind, &mut config).then_some(())?;
        }
        Some(config)
    }

    /// ISO/IEC 14496-15, 11.2.4.2, behind version and flags; profile, tier and level are those of the first set that
    /// can be read. A stream needs no video parameter set.
    fn vvc(&self) -> Option<Vec<u8>> {
        let sps = self.of_type(15).find_map(|it| vvc::read(it))?;
        let of_samples = u16::from(sps.sub_layers) << 4 | u16::from(sps.picture.chroma_format);
        let mut config = vec![0, 0, 0, 0, 0xff];
        halves(&mut config, &[of_samples]);
        config.extend([sps.picture.more_luma_bits << 5 | 0x1f, sps.constraints]);
        config.extend(&sps.profile);
        let [width, height] = sps.coded.map(|it| u16::try_from(it).ok());
        halves(&mut config, &[width?, height?, 0]);
        let arrays = config.len();
        config.push(2);
        config[arrays] += u8::from(self.put_array(14, &mut config));
        for kind in [15, 16] {
            self.put_array(kind, &mut config).then_some(())?;
        }
        Some(config)
    }

    /// Puts the sets of a type behind that and their number; whether there are any.
    fn put_array(&self, kind: u8, config: &mut Vec<u8>) -> bool {
        let sets: Vec<&Vec<u8>> = self.of_type(kind).filter(|it| it.len() <= 0xffff).collect();
        if !sets.is_empty() {
            config.push(kind);
            halves(config, &[sets.len() as u16]);
            put_sets(config, &sets);
        }
        !sets.is_empty()
    }
}

fn put_sets(config: &mut Vec<u8>, sets: &[&Vec<u8>]) {
    for set in sets {
        halves(config, &[set.len() as u16]);
        config.extend_from_slice(set);
    }
}
