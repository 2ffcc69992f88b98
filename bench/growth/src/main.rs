//! Readers of the Rust crate over inputs of a size that a stranger may pick, for a program that counts instructions:
//! `tools/growth` builds and runs it.
//!
//! ```text
//! growth              prints the jobs, each with the size that tools/growth begins with
//! growth JOB SIZE
//! ```

use emupedestal::access_units::{AccessUnitReader, FromLengths, access_units};
use emupedestal::sdp::{CodecParameters, H264Parameter, H265Parameter, H266Parameter, Parameter};
use emupedestal::{Codec, units};
use std::env;
use std::hint::black_box;
use std::io::{self, Read};

/// A stream that comes by so many bytes at a time, its first bytes at once.
struct Pieces<'a> {
    rest: &'a [u8],
    first: usize,
    piece: usize,
}

impl Read for Pieces<'_> {
    fn read(&mut self, to: &mut [u8]) -> io::Result<usize> {
        let piece = match std::mem::take(&mut self.first) {
            0 => self.piece,
            first => first,
        };
        let (bytes, rest) = self.rest.split_at(piece.min(self.rest.len()).min(to.len()));
        to[..bytes.len()].copy_from_slice(bytes);
        self.rest = rest;
        Ok(bytes.len())
    }
}

/// Reads all access units of a stream; whether it ends well doesn't matter.
fn read(codec: Codec, from: impl Read) {
    let mut reader = AccessUnitReader::new(codec, from);
    while let Ok(Some(unit)) = reader.next_access_unit() {
        black_box(unit);
    }
}

fn read_in(piece: usize, stream: &[u8]) {
    let (rest, first) = (stream, 0);
    read(Codec::H264, Pieces { rest, first, piece });
}

/// Bytes that are these over and over.
fn cycle(bytes: &[u8], size: usize) -> Vec<u8> {
    bytes.iter().copied().cycle().take(size).collect()
}

/// The front of a stream, and behind it one byte up to a size.
fn filled(front: &[u8], byte: u8, size: usize) -> Vec<u8> {
    let mut stream = front.to_vec();
    stream.resize(size, byte);
    stream
}

/// A picture of H.264.
const SLICE: [u8; 5] = [0, 0, 1, 0x65, 0x88];

/// Zeros, many at once, behind which each read brings one more.
fn zeros_then_few(size: usize) {
    const FIRST: usize = 2_500_000;
    let (rest, first, piece) = (&vec![0; FIRST + size][..], FIRST, 1);
    read(Codec::H265, Pieces { rest, first, piece });
}

/// The cuts of a whole stream.
fn cut(stream: &[u8]) {
    for codec in [Codec::H264, Codec::H265, Codec::H266] {
        black_box(units(codec, stream).map(<[u8]>::len).sum::<usize>());
        black_box(access_units(codec, stream).map(<[u8]>::len).sum::<usize>());
    }
}

/// Reads lengths in pieces of so many bytes.
fn lengths_in(piece: usize, stream: &[u8]) {
    let (rest, first) = (stream, 0);
    read(Codec::H264, FromLengths::new(Pieces { rest, first, piece }));
}

fn long_unit(size: usize) -> Vec<u8> {
    let len = (size as u32).to_be_bytes();
    [&len[..], &filled(&[0x65, 0x88], 7, size)].concat()
}

/// Reads the format parameters of each codec, writes them, and asks for what they have.
fn format(text: &str) {
    of_codec::<H264Parameter>(text, H264Parameter::SpropParameterSets);
    of_codec::<H265Parameter>(text, H265Parameter::SpropSps);
    of_codec::<H266Parameter>(text, H266Parameter::SpropSps);
}

fn of_codec<P: Parameter>(text: &str, sets: P) {
    if let Ok(format) = text.parse::<CodecParameters<P>>() {
        black_box(format.to_string());
        drop(black_box(format.units(sets)));
    }
}

fn repeated(text: &str, size: usize) -> String {
    text.repeat(size / text.len())
}

/// Sets of two bytes, as each codec writes them.
fn sets(size: usize) {
    for name in ["sprop-parameter-sets", "sprop-sps"] {
        let text = repeated("Z0I=,", size);
        format(&format!("{name}={}", text.trim_end_matches(',')));
    }
}

fn names(size: usize) {
    let text: String = (0..size / 8).map(|it| format!("x{it}=1;")).collect();
    format(&text);
}

/// A job with the size to begin with, in bytes.
type Job = (&'static str, usize, fn(usize));

const JOBS: [Job; 22] = [
    ("reader-zeros-by-1", 1 << 14, |n| read_in(1, &vec![0; n])),
    ("reader-zeros-by-1460", 1 << 18, |n| {
        read_in(1460, &vec![0; n])
    }),
    ("reader-zeros-by-65536", 1 << 20, |n| {
        read_in(1 << 16, &vec![0; n])
    }),
    ("reader-zeros-then-few", 1 << 8, zeros_then_few),
    ("reader-unit-and-zeros-by-1", 1 << 14, |n| {
        read_in(1, &filled(&SLICE, 0, n))
    }),
    ("reader-unit-by-1", 1 << 14, |n| {
        read_in(1, &filled(&SLICE, 7, n))
    }),
    ("reader-unit-by-1460", 1 << 18, |n| {
        read_in(1460, &filled(&SLICE, 7, n))
    }),
    ("reader-delimiters-by-1", 1 << 14, |n| {
        read_in(1, &cycle(&[0, 0, 1, 9], n))
    }),
    ("reader-codes-by-1", 1 << 14, |n| {
        read_in(1, &cycle(&[0, 0, 1], n))
    }),
    ("reader-sets-by-1", 1 << 14, |n| {
        read_in(1, &cycle(&[0, 0, 1, 0x67, 1], n))
    }),
    ("reader-slices-by-1460", 1 << 18, |n| {
        read_in(1460, &cycle(&SLICE, n))
    }),
    ("lengths-of-1-by-1", 1 << 14, |n| {
        lengths_in(1, &cycle(&[0, 0, 0, 1, 0x65], n))
    }),
    ("lengths-of-1-by-1460", 1 << 18, |n| {
        lengths_in(1460, &cycle(&[0, 0, 0, 1, 0x65], n))
    }),
    ("lengths-unit-by-1", 1 << 14, |n| {
        lengths_in(1, &long_unit(n))
    }),
    ("units-of-codes", 1 << 16, |n| cut(&cycle(&[0, 0, 1], n))),
    ("units-of-zeros", 1 << 16, |n| cut(&filled(&SLICE, 0, n))),
    ("units-of-1", 1 << 16, |n| cut(&cycle(&[0, 0, 1, 0x65], n))),
    ("fmtp-names", 1 << 14, names),
    ("fmtp-semicolons", 1 << 14, |n| format(&repeated(" ; ", n))),
    ("fmtp-braces", 1 << 14, |n| format(&repeated("{};=", n))),
    ("fmtp-spaces", 1 << 14, |n| {
        format(&format!("a={}", repeated(" ", n)))
    }),
    ("fmtp-sets", 1 << 14, sets),
];

fn main() {
    let words: Vec<String> = env::args().skip(1).collect();
    let [job, size] = &words[..] else {
        JOBS.iter()
            .for_each(|(name, size, _)| println!("{name} {size}"));
        return;
    };
    let (_, _, run) = JOBS.iter().find(|it| it.0 == job).expect("a job");
    run(size.parse().expect("a size"));
}
