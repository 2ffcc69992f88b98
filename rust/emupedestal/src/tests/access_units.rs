//! Where access units begin, by the sections of the standards that `access_units` names.

use super::bytes;
use crate::Codec;
use crate::access_units::{AccessUnitFinder, AccessUnitReader, FromLengths, access_units};
use std::io::{self, ErrorKind, Read};

/// Units, of which those with a star begin an access unit.
#[track_caller]
fn begin(codec: Codec, units: &[&str]) {
    let mut finder = AccessUnitFinder::new(codec);
    for (i, unit) in units.iter().enumerate() {
        let begins = finder.begins(&bytes(unit.trim_start_matches('*')));
        assert_eq!(begins, unit.starts_with('*'), "{i}: {unit}");
    }
}

#[test]
fn of_h264() {
    // Before the first slice nothing begins anew: AUD, SPS, PPS, SEI, prefix.
    begin(
        Codec::H264,
        &["*0910", "6742", "68ce", "0605", "0e40", "6588"],
    );
    // Types that begin one behind a slice, and the slice itself where first_mb_in_slice is 0.
    for unit in [
        "06", "07", "08", "09", "0e", "0f", "10", "11", "12", "0180", "0280", "0580",
    ] {
        begin(Codec::H264, &["*6588", &format!("*{unit}")]);
    }
    // Those that don't: later slices, partitions B and C, ends, filler, auxiliary slices.
    for unit in [
        "0140", "0240", "0540", "0380", "0480", "0a", "0b", "0c", "0d", "13", "14", "15", "",
    ] {
        begin(Codec::H264, &["*6588", unit, "*419a"]);
    }
}

#[test]
fn of_h265() {
    begin(
        Codec::H265,
        &[
            "*460150", "40010c", "420101", "4401c1", "4e0105", "2601af", "26012f", "*0201d0",
        ],
    );
    // AUD 35, VPS to PPS 32 to 34, prefix SEI 39, 41 to 44, 48 to 55, slices 0 to 31.
    for unit_type in (32..=35).chain([39]).chain(41..=44).chain(48..=55) {
        begin(
            Codec::H265,
            &["*2601af", &format!("*{:02x}01", unit_type << 1)],
        );
    }
    for unit_type in [36, 37, 38, 40, 45, 46, 47, 56, 63] {
        begin(
            Codec::H265,
            &["*2601af", &format!("{:02x}0180", unit_type << 1)],
        );
    }
    for unit_type in 0..32 {
        let header = format!("{:02x}01", unit_type << 1);
        begin(
            Codec::H265,
            &["*2601af", &format!("{header}7f"), &format!("*{header}80")],
        );
    }
    // A picture of the next layer is of the same access unit.
    begin(Codec::H265, &["*2601af", "0209d0", "4e0905", "*0201d0"]);
}

#[test]
fn of_h266() {
    // AUD, VPS, SPS, PPS, prefix APS, a slice with its picture's header, a suffix SEI.
    begin(
        Codec::H266,
        &[
            "*00a128", "007101", "007901", "008101", "008901", "0039c4", "00c105",
        ],
    );
    for unit_type in (12..=17).chain([19, 20, 23, 26, 28, 29]) {
        begin(
            Codec::H266,
            &["*0039c4", &format!("*00{:02x}", unit_type << 3 | 1)],
        );
    }
    for unit_type in [18, 21, 22, 24, 25, 27, 30, 31] {
        begin(
            Codec::H266,
            &["*0039c4", &format!("00{:02x}80", unit_type << 3 | 1)],
        );
    }
    for unit_type in 0..12 {
        let header = format!("00{:02x}", unit_type << 3 | 1);
        begin(
            Codec::H266,
            &["*0039c4", &format!("{header}7f"), &format!("*{header}80")],
        );
    }
    // A picture's header, its slices, and the next.
    begin(
        Codec::H266,
        &["*009aaa", "000a31", "000a35", "*009aab", "000a31"],
    );
    // A picture of a higher layer is of the same access unit, and a delimiter begins one always.
    begin(
        Codec::H266,
        &["*0039c4", "013980", "*0001c8", "010180", "*01a128"],
    );
}

/// What is read in pieces of so many bytes.
struct Pieces<'a>(&'a [u8], usize);

impl Read for Pieces<'_> {
    fn read(&mut self, to: &mut [u8]) -> io::Result<usize> {
        let len = self.0.len().min(self.1).min(to.len());
        let (piece, rest) = self.0.split_at(len);
        to[..len].copy_from_slice(piece);
        self.0 = rest;
        Ok(len)
    }
}

/// The access units that are read from a stream in pieces of so many bytes.
fn read(codec: Codec, stream: &[u8], piece: usize) -> io::Result<Vec<Vec<u8>>> {
    let mut reader = AccessUnitReader::new(codec, Pieces(stream, piece));
    let mut found = Vec::new();
    while let Some(access_unit) = reader.next_access_unit()? {
        found.push(access_unit.to_vec());
    }
    assert!(reader.next_access_unit()?.is_none(), "the end stays");
    assert_eq!(reader.position(), stream.len() as u64);
    Ok(found)
}

#[test]
fn a_stream_in_pieces_of_any_length() {
    let stream = bytes(
        "000000 00000109f0 0000016742 00000168ce 0000016588aa00 0000000165420300 000001419abb 0000",
    );
    let wanted = [
        "00000109f0 0000016742 00000168ce 0000016588aa00 00000001654203",
        "000001419abb",
    ]
    .map(bytes);
    for piece in 1..=stream.len() {
        assert_eq!(
            read(Codec::H264, &stream, piece).expect("a stream"),
            wanted,
            "{piece}"
        );
    }
    // The start codes' own zeros stand before each where the whole is cut.
    let found: Vec<&[u8]> = access_units(Codec::H264, &stream).collect();
    assert_eq!(found, [&stream[..32], &stream[32..]]);
}

#[test]
fn access_units_longer_than_what_is_read_at_a_time() {
    let long = [bytes("0000016588"), vec![7; 9_000_000]].concat();
    let next = bytes("000001419a05");
    let stream = [long.clone(), vec![0; 3], next.clone(), next.clone()].concat();
    let found = read(Codec::H264, &stream, 100_000).expect("a stream");
    assert_eq!(found, [long, next.clone(), next]);
}

#[test]
fn streams_without_access_units() {
    for stream in [vec![], vec![0; 2], vec![0; 5_000_000]] {
        assert_eq!(
            read(Codec::H265, &stream, 70_000).expect("nothing"),
            [[0; 0]; 0]
        );
    }
    assert_eq!(access_units(Codec::H265, &[]).count(), 0);
    let unit = bytes("2601af");
    assert_eq!(
        access_units(Codec::H265, &unit).collect::<Vec<_>>(),
        [&unit[..]]
    );
}

#[test]
fn streams_that_are_refused() {
    let refused = |stream: &[u8], limit| {
        let mut reader = AccessUnitReader::with_limit(Codec::H264, stream, limit);
        let kinds = [0, 1].map(|_| {
            reader
                .next_access_unit()
                .map_err(|error| error.kind())
                .err()
        });
        assert_eq!(kinds, [Some(ErrorKind::InvalidData); 2]);
    };
    refused(&bytes("65880000016588"), 1 << 20);
    refused(&bytes("65"), 1 << 20);
    refused(&[9; 3_000_000], 1 << 30);
    refused(&[&bytes("0000016588")[..], &[7; 6 << 20]].concat(), 1 << 20);
    // Zeros without an end, before the first start code and behind a unit.
    let zeros = vec![0; 6 << 20];
    refused(&zeros, 1 << 20);
    refused(&[&bytes("0000016588")[..], &zeros].concat(), 1 << 20);
    let behind_zeros = [&zeros[..], &bytes("016588")].concat();
    refused(&behind_zeros, 1 << 20);
    let mut reader = AccessUnitReader::with_limit(Codec::H264, &behind_zeros[..], 6 << 20);
    let found = reader.next_access_unit().expect("few enough zeros");
    assert_eq!(found, Some(&bytes("0000016588")[..]));
}

/// What comes of units behind lengths that are read in pieces of so many bytes, and what ends it.
fn from_lengths(stream: &[u8], piece: usize, limit: u32) -> (Vec<u8>, io::Result<()>) {
    let mut reader = FromLengths::with_limit(Pieces(stream, piece), limit);
    let mut came = Vec::new();
    let end = reader.read_to_end(&mut came).map(|_| ());
    let said = |end: &io::Result<()>| end.as_ref().err().map(io::Error::to_string);
    let again = reader.read(&mut [0; 9]).map(|_| ());
    assert_eq!(said(&end), said(&again), "the end stays");
    (came, end)
}

#[test]
fn lengths_in_pieces_of_any_length() {
    // A unit of one byte, one with zeros before a 1 that is the next length's, one that ends in zeros.
    let stream =
        bytes("0000000109 00000005658800aa01 000000020100 00000003419a02 000000046742 0000");
    let wanted =
        bytes("0000000109 00000001658800aa01 000000010100 00000001419a02 000000016742 0000");
    for piece in 1..=stream.len() {
        let (came, end) = from_lengths(&stream, piece, 5);
        assert_eq!((came, end.is_ok()), (wanted.clone(), true), "{piece}");
        let mut reader =
            AccessUnitReader::new(Codec::H264, FromLengths::new(Pieces(&stream, piece)));
        let mut found = Vec::new();
        while let Some(access_unit) = reader.next_access_unit().expect("a stream") {
            found.push(access_unit.to_vec());
        }
        let wanted = [
            "00000109 00000001658800aa01 0000000101",
            "000001419a02",
            "0000016742",
        ];
        assert_eq!(found, wanted.map(bytes), "{piece}");
        assert_eq!(reader.position(), stream.len() as u64);
    }
}

#[test]
fn lengths_that_are_refused() {
    let good = "00000003658807";
    for (bad, kind, what) in [
        (
            "00",
            ErrorKind::UnexpectedEof,
            "the length at byte 7 is not whole",
        ),
        (
            "000000",
            ErrorKind::UnexpectedEof,
            "the length at byte 7 is not whole",
        ),
        (
            "00000003",
            ErrorKind::UnexpectedEof,
            "the length at byte 7 says that its unit has 3 bytes, of which 0 are there",
        ),
        (
            "000000034188",
            ErrorKind::UnexpectedEof,
            "the length at byte 7 says that its unit has 3 bytes, of which 2 are there",
        ),
        (
            "00000000",
            ErrorKind::InvalidData,
            "the length at byte 7 is 0",
        ),
        (
            "0000000b",
            ErrorKind::InvalidData,
            "the length at byte 7 says that its unit has 11 bytes, more than the 10 that one may have",
        ),
        (
            "00000007 41 000001 67 42 07",
            ErrorKind::InvalidData,
            "the unit behind the length at byte 7 holds a start code, at byte 12, which no unit does",
        ),
        (
            "00000007 41 00000001 67 42",
            ErrorKind::InvalidData,
            "the unit behind the length at byte 7 holds a start code, at byte 13, which no unit does",
        ),
    ] {
        let stream = bytes(&format!("{good} {bad}"));
        for piece in 1..=stream.len() {
            let (came, end) = from_lengths(&stream, piece, 10);
            let error = end.expect_err("a refusal");
            assert_eq!((error.kind(), error.to_string().as_str()), (kind, what));
            assert_eq!(came[..7], bytes("00000001658807"), "what is before came");
        }
    }
    assert_eq!(from_lengths(&[], 1, 10).0, [0; 0]);
}
