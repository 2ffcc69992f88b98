//! Formats as they are drawn: most as ends write them, some with a fault.

use crate::random::Random;

/// Each parameter: its name, how often of a hundred it is given, and its values.
const H264: &str = "
profile-level-id 92
max-recv-level 16 e028 e028 E028 e034 f00b e00b 0009 1009 e01f e034 e021
max-mbps 8 1484 1485 2999 3000 5999 6000 11879 11880 19799 19800 20249 20250 40499 40500 107999 108000 215999 \
    216000 245759 245760 522239 522240 589823 589824 983039 983040 2073599 2073600 4177919 4177920 8355839 8355840 \
    16711679 16711680
max-smbps 8 1484 1485 2999 3000 5999 6000 11879 11880 19799 19800 20249 20250 40499 40500 107999 108000 215999 \
    216000 245759 245760 522239 522240 589823 589824 983039 983040 2073599 2073600 4177919 4177920 8355839 8355840 \
    16711679 16711680
max-fs 8 98 99 395 396 791 792 1619 1620 3599 3600 5119 5120 8191 8192 8703 8704 22079 22080 36863 36864 139263 139264
max-cpb 8 174 175 349 350 499 500 999 1000 1999 2000 3999 4000 9999 10000 13999 14000 19999 20000 24999 25000 62499 \
    62500 134999 135000 239999 240000 479999 480000 799999 800000
max-dpb 8 148 149 337 338 890 891 1781 1782 3037 3038 6749 6750 7679 7680 12287 12288 13055 13056 41399 41400 69119 \
    69120 261119 261120 18446744073709551615
max-br 8 63 64 127 128 191 192 383 384 767 768 1999 2000 3999 4000 9999 10000 13999 14000 19999 20000 49999 50000 \
    134999 135000 239999 240000 479999 480000 799999 800000
redundant-pic-cap 3 0 1
sprop-parameter-sets 30 Z0IACpZTBYmI,aMljiA== Z0LgH4xo,aM48gA==
sprop-level-parameter-sets 20 42e00a:Z0LgCoxo,aM48gA==
use-level-src-parameter-sets 30 0 1 1
in-band-parameter-sets 10 0 1
level-asymmetry-allowed 70 0 1 1 1
packetization-mode 85 0 1 1 1 1 2
sprop-interleaving-depth 12 1 4
sprop-deint-buf-req 12 0 10 11
deint-buf-cap 16 9 10 11 4294967295
sprop-init-buf-time 2 0
sprop-max-don-diff 2 1
max-rcmd-nalu-size 4 1 1200
sar-understood 4 0 16 254
sar-supported 4 1 16 255
";
const IDC_IOP: &str = "42e0 42e0 42c0 4200 4200 42f0 4240 4280 4210 42e1 4d00 4d00 4d40 4d80 4dc0 4de1 5800 5880 58c0 58e0 \
    6400 6400 6400 640c 640c 6410 6408 6e00 6e10 7a00 7a10 f400 f410 2c10 2c00 7600 4300";
const LEVELS: &str =
    "09 0a 0b 0c 0d 14 15 16 1e 1f 1f 1f 1F 20 28 29 2a 32 33 34 3c 3d 3E 07 21 00";
const H265: &str = "
profile-space 8 0 0 0 1 3
profile-id 50 1 1 1 1 2 2 3 4 5 6 7 8 9 10 11 12 31 0
tier-flag 40 0 0 0 1
level-id 70 30 60 63 90 93 93 120 120 123 150 153 156 180 180 183 186 7 94 255
interop-constraints 12 b00000000000 B00000000000 900000000000
profile-compatibility-indicator 12 40000000 60000000 20000000
sprop-sub-layer-id 4 0 6
recv-sub-layer-id 4 0 6
max-recv-level-id 16 30 93 120 123 150 186 94
tx-mode 30 SRST SRST srst MRST MRMT
sprop-vps 10 QAEMAf//AWAAAAMAkAAAAwAAAwA/ugJA QAEM
sprop-sps 10 QgEB
sprop-pps 10 RAHAcYIS RAHA
sprop-sei 2 TgEF
max-lsr 8 530841600 530841601 1069547521 552959 552960 3686399 3686400 7372799 7372800 16588799 16588800 \
    33177599 33177600 66846719 66846720 \
    133693439 133693440 267386879 267386880 534773759 534773760 1069547519 1069547520 2139095039 2139095040 \
    4278190079 4278190080
max-lps 8 15728640 15728641 35651585 36863 36864 122879 122880 245759 245760 552959 552960 983039 983040 \
    2228223 2228224 8912895 8912896 \
    35651583 35651584
max-cpb 8 160000 160001 480000 480001 349 350 1499 1500 2999 3000 5999 6000 9999 10000 11999 12000 19999 20000 \
    24999 25000 29999 30000 39999 \
    40000 49999 50000 59999 60000 99999 100000 119999 120000 159999 160000 239999 240000 479999 480000 799999 800000
max-dpb 4 5 6 16
max-br 8 160000 160001 480000 480001 127 128 1499 1500 2999 3000 5999 6000 9999 10000 11999 12000 19999 20000 \
    24999 25000 29999 30000 39999 \
    40000 49999 50000 59999 60000 99999 100000 119999 120000 159999 160000 239999 240000 479999 480000 799999 800000
max-tr 8 0 1 2 3 4 5 10 11 16 17 21 22 48 49 80 81 352 353
max-tc 8 0 1 2 3 4 5 9 10 16 17 19 20 48 49 80 81 320 321
max-fps 4 1 100
sprop-max-don-diff 14 0 0 1
sprop-depack-buf-nalus 14 0 1
sprop-depack-buf-bytes 14 0 7 8
depack-buf-cap 14 7 8
sprop-segmentation-id 3 0 3
sprop-spatial-segmentation-idc 3 0 fff
dec-parallel-cap 3 {w:8;level-id=186} {t:1;max-br=3,w:2}
include-dph 3 0 0,2 0,256 7f , 255
";
const H266: &str = "
profile-id 50 1 1 1 17 17 33 49 65 81 97 113 2 0
tier-flag 40 0 0 0 1
sub-profile-id 8 1 2
interop-constraints 12 gA== gA== wA==
level-id 70 16 32 35 48 51 51 64 67 80 83 86 96 99 102 105 255 52 0
sprop-sublayer-id 4 0 6
sprop-ols-id 4 0 256
recv-sublayer-id 4 0 6
recv-ols-id 4 0 256
max-recv-level-id 16 16 51 64 83 102 52
sprop-dci 4 AGkA
sprop-vps 20 AHkA AHkB
sprop-sps 10 AIEA
sprop-pps 10 AIkA
sprop-sei 2 AMkA
max-lsr 8 1 33177599 33177600 530841600 530841601 66846719 66846720 4278190080 4812963839 4812963840
max-fps 4 1 100
sprop-max-don-diff 14 0 0 1
sprop-depack-buf-bytes 14 0 7 8
depack-buf-cap 14 7 8
";

/// What stands for a value, or behind one, and what is put between any characters.
#[rustfmt::skip]
const STRANGE: [&str; 16] = [
    "", "-1", "+1", "1x", "0x1", "18446744073709551616", "4294967296", "{", "{;}", "=", "42e01", "SRS", "00", "256", "a b", "€",
];
#[rustfmt::skip]
const ANY: [&str; 16] = [
    ";", "=", "{", "}", ",", " ", "\t", "\r", "\n", "\u{c}", "\u{b}", "0", "A", "/", "\0", "€",
];

struct Row {
    name: &'static str,
    often: usize,
    values: Vec<&'static str>,
}

/// What a codec's formats are drawn of.
pub struct Table(Vec<Row>);

/// The values of a format.
pub type Values = [Option<&'static str>; 30];

impl Table {
    pub fn all() -> [Table; 3] {
        let mut tables = [H264, H265, H266].map(|text| {
            let rows = text.lines().filter(|line| !line.is_empty()).map(|line| {
                let mut words = line.split(' ');
                let mut next = || words.next().expect("a word");
                let (name, often) = (next(), next().parse().expect("a number"));
                Row {
                    name,
                    often,
                    values: words.collect(),
                }
            });
            Table(rows.collect())
        });
        let levels = || LEVELS.split(' ');
        let ids = IDC_IOP.split(' ').filter(|it| !it.is_empty());
        let ids = ids.flat_map(|id| levels().map(move |level| &*format!("{id}{level}").leak()));
        tables[0].0[0].values = ids.collect();
        tables
    }

    fn value(&self, row: usize, random: &mut Random) -> Option<&'static str> {
        let row = &self.0[row];
        (random.below(100) < row.often).then(|| random.of(&row.values))
    }

    pub fn format(&self, random: &mut Random) -> Values {
        let mut values = [None; 30];
        (0..self.0.len()).for_each(|row| values[row] = self.value(row, random));
        self.tell_order(&mut values, random);
        values
    }

    /// Of H.264 mode 2 mostly tells what it has to, and the other modes nothing of it.
    fn tell_order(&self, values: &mut Values, random: &mut Random) {
        const MODE: usize = 14;
        if self.0[MODE].name != "packetization-mode" || random.one_in(4) {
            return;
        }
        let is_interleaved = values[MODE] == Some("2");
        for row in [15, 16, 17, 18, 19] {
            let is_told = is_interleaved && (row < 18 || random.one_in(4));
            values[row] = is_told.then(|| random.of(&self.0[row].values));
        }
    }

    /// A few of the rows, each as often as another.
    pub fn some(&self, random: &mut Random) -> Values {
        let mut values = [None; 30];
        for _ in 0..random.below(5) {
            let row = random.below(self.0.len());
            values[row] = Some(random.of(&self.0[row].values));
        }
        values
    }

    /// One much like another: most rows are the same.
    pub fn like(&self, other: &Values, random: &mut Random) -> Values {
        let mut values = *other;
        for (row, value) in values.iter_mut().enumerate().take(self.0.len()) {
            if random.one_in(6) {
                *value = self.value(row, random);
            }
        }
        values
    }

    /// Writes a format as an end might: in any order, with blanks, in either case, and now and then with a fault.
    pub fn write(&self, values: &Values, random: &mut Random, text: &mut String) {
        text.clear();
        let (rows, first) = (self.0.len(), random.below(self.0.len()));
        let back = random.one_in(2);
        let faulty = random.one_in(12);
        for i in 0..rows {
            let at = (first + if back { rows - i } else { i }) % rows;
            let Some(value) = values[at] else {
                continue;
            };
            let odd = if random.one_in(8) {
                random.below(if faulty { 9 } else { 6 })
            } else {
                9
            };
            let from = text.len();
            text.push_str(self.0[at].name);
            if odd == 0 {
                text[from..].make_ascii_uppercase();
            }
            text.push_str(if odd == 1 { " =\t" } else { "=" });
            let from = text.len();
            match odd {
                2 if value.bytes().all(|c| c.is_ascii_digit()) => text.push_str("00"),
                6 => text.push_str(random.of(&STRANGE)),
                _ => {}
            }
            text.push_str(value);
            match odd {
                3 if !value.contains('=') => text[from..].make_ascii_uppercase(),
                4 => text.push_str("; x-google-start-bitrate=1000"),
                5 => text.push_str(" ; ;a=b=c"),
                7 => text.push_str(random.of(&STRANGE)),
                8 => text.extend([";", self.0[at].name, "=", value]),
                _ => {}
            }
            text.push_str(if odd == 3 { "; " } else { ";" });
        }
    }
}

/// Spoils a text: characters are put in or taken away, or it is cut.
pub fn spoil(text: &mut String, random: &mut Random) {
    for _ in 0..random.below(4) {
        let mut at = random.below(text.len() + 1);
        while !text.is_char_boundary(at) {
            at -= 1;
        }
        match random.below(8) {
            0 if random.one_in(4) => text.truncate(at),
            1 | 2 if at < text.len() => drop(text.remove(at)),
            _ => text.insert_str(at, random.of(&ANY)),
        }
    }
}
