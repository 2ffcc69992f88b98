//! What `inspect` says of packets, line by line.

use crate::build::{Rtp, pcap_with};
use crate::program::Folder;

/// What the lines of rates begin with; `rates.rs` has what they say.
const RATES: [&str; 4] = [
    "duration: ",
    "loss: ",
    "access unit size: ",
    "keyframe interval: ",
];

/// Inspects packets, and compares the lines but for those of rates.
#[track_caller]
fn says(packets: &[Rtp], options: &[&str], status: i32, wanted: &[&str]) {
    let folder = Folder::new();
    folder.write("in.pcap", &pcap_with(packets));
    let ran = folder.run(&[&["inspect", "in.pcap"], options].concat());
    let is_of_rates = |line: &&str| RATES.iter().any(|it| line.starts_with(it));
    let lines = || ran.out.lines().skip(2);
    assert_eq!(lines().filter(is_of_rates).count(), RATES.len());
    let said: Vec<&str> = lines().filter(|it| !is_of_rates(it)).collect();
    assert_eq!(said, wanted, "{ran:#?}");
    assert_eq!((ran.status, ran.err.as_str()), (status, ""));
}

fn packets(payloads: &[(u32, bool, &[u8])]) -> Vec<Rtp> {
    let each = (7..).zip(payloads);
    each.map(|(sequence, (timestamp, marker, payload))| {
        Rtp::new(sequence, *timestamp, *marker, payload)
    })
    .collect()
}

#[test]
fn packets_of_h264() {
    let sets = [0x78, 0, 4, 0x67, 0x42, 0xc0, 0x1f, 0, 2, 0x68, 0xce];
    let sent: [(u32, bool, &[u8]); 7] = [
        (0, false, &sets),
        (0, false, &[0x06, 5, 1, 9, 0x80]),
        (0, false, &[0x7c, 0x85, 0x88, 1]),
        (0, false, &[0x7c, 0x05, 0x88, 1]),
        (0, true, &[0x7c, 0x45, 0x88]),
        (3000, true, &[0x41, 0x9a, 1]),
        (6000, true, &[0x5c, 0x81, 0x9a]),
    ];
    says(
        &packets(&sent),
        &[],
        3,
        &[
            "    7     0.000000           0      11  STAP-A      SPS 4, PPS 2",
            "    8     0.001000           0       5  single      SEI 5",
            "    9     0.002000           0       4  FU-A S      IDR slice  keyframe",
            "   10     0.003000           0       4  FU-A -      IDR slice",
            "   11     0.004000           0 M     3  FU-A E      IDR slice",
            "      = access unit of 7 to 11, 33 bytes: keyframe, whole, clean",
            "   12     0.005000        3000 M     3  single      slice 3",
            "      = access unit of 12, 7 bytes: whole, clean",
            "   13     0.006000        6000 M     3  FU-A S      slice",
            "1 unit: left out, for want of a packet",
            "2 access units: known to be whole",
            "2 access units: clean: nothing that a decoder needs is missing",
            "7 packets of 33 bytes, 2 access units, 1 keyframe",
        ],
    );
}

/// RFC 7798, 4.4: aggregates, fragments, a PACI packet of an IDR slice.
#[test]
fn packets_of_h265() {
    let sets = [
        0x60, 1, 0, 3, 0x40, 1, 0x0c, 0, 3, 0x42, 1, 1, 0, 3, 0x44, 1, 0xc1,
    ];
    let sent: [(u32, bool, &[u8]); 5] = [
        (0, false, &sets),
        (0, false, &[0x62, 1, 0x93, 0xaf, 1]),
        (0, true, &[0x62, 1, 0x53, 2]),
        (3000, true, &[0x00, 1, 0xd0, 9]),
        (6000, true, &[0x64, 1, 0x26, 0x10, 0x77, 0xaf, 1]),
    ];
    says(
        &packets(&sent),
        &[],
        0,
        &[
            "    7     0.000000           0      17  AP          VPS 3, SPS 3, PPS 3",
            "    8     0.001000           0       5  FU S        IDR_W_RADL  keyframe",
            "    9     0.002000           0 M     4  FU E        IDR_W_RADL",
            "      = access unit of 7 to 9, 30 bytes: keyframe, whole, clean",
            "   10     0.003000        3000 M     4  single      TRAIL_N 4",
            "      = access unit of 10, 8 bytes: whole, clean, disposable",
            "   11     0.004000        6000 M     7  PACI        IDR_W_RADL 4  keyframe",
            "      = access unit of 11, 8 bytes: keyframe, whole, clean",
            "3 access units: known to be whole",
            "3 access units: clean: nothing that a decoder needs is missing",
            "5 packets of 37 bytes, 3 access units, 2 keyframes",
        ],
    );
}

/// The same with numbers: DONL in all but later fragments, and DOND of one byte in an aggregate.
#[test]
fn packets_of_h265_with_numbers() {
    let sets = [0x60, 1, 0, 0, 0, 3, 0x40, 1, 0x0c, 0, 0, 3, 0x42, 1, 1];
    let sent: [(u32, bool, &[u8]); 3] = [
        (0, false, &sets),
        (0, false, &[0x62, 1, 0x93, 0, 2, 0xaf]),
        (0, true, &[0x02, 1, 0, 3, 0x50, 9]),
    ];
    says(
        &packets(&sent),
        &["--donl"],
        3,
        &[
            "    7     0.000000           0      15  AP          VPS 3, SPS 3",
            "    8     0.001000           0       6  FU S        IDR_W_RADL  keyframe",
            "    9     0.002000           0 M     6  single      TRAIL_R 4",
            "      = access unit of 7 to 9, 22 bytes: not known to be whole",
            "1 unit: left out, for want of a packet",
            "0 access units: known to be whole",
            "0 access units: clean: nothing that a decoder needs is missing",
            "3 packets of 27 bytes, 1 access unit, 0 keyframes",
        ],
    );
}

/// RFC 9328, 4.3; with numbers an aggregate has DONL alone.
#[test]
fn packets_of_h266() {
    let units = [0, 3, 0, 0x79, 1, 0, 4, 0, 0x81, 2, 3];
    let fragment = [0, 0xe9, 0xc9, 0, 1, 0xc4];
    for (numbers, options) in [
        (&[][..], &["--codec", "h266"][..]),
        (&[0, 9], &["--codec=vvc", "--donl"]),
    ] {
        let aggregate = [&[0, 0xe1], numbers, &units].concat();
        let picture = [&[0, 0x41], numbers, &[0xc4, 1]].concat();
        let sent: [(u32, bool, &[u8]); 3] = [
            (0, false, &aggregate),
            (0, true, &picture),
            (90, true, &fragment),
        ];
        let len = numbers.len();
        says(
            &packets(&sent),
            options,
            0,
            &[
                &format!(
                    "    7     0.000000           0   {:5}  AP          SPS 3, PPS 4",
                    13 + len
                ),
                &format!(
                    "    8     0.001000           0 M {:5}  single      IDR_N_LP 4  keyframe",
                    4 + len
                ),
                "      = access unit of 7 to 8, 23 bytes: keyframe, whole, clean",
                "    9     0.002000          90 M     6  FU SE       CRA  keyframe",
                // The number stands before its data.
                &format!(
                    "      = access unit of 9, {} bytes: keyframe, whole, clean",
                    9 - len
                ),
                "2 access units: known to be whole",
                "2 access units: clean: nothing that a decoder needs is missing",
                &format!(
                    "3 packets of {} bytes, 2 access units, 2 keyframes",
                    23 + 2 * len
                ),
            ],
        );
    }
}

#[test]
fn what_is_lost_refused_and_late() {
    let slice =
        |sequence: u16| Rtp::new(sequence, u32::from(sequence) * 90, true, &[0x41, 0x9a, 1]);
    let mut sent: Vec<Rtp> = [5, 8, 7, 9, 9, 10].map(slice).to_vec();
    sent[5].payload = vec![0x5e, 0x85];
    says(
        &sent,
        &["--window", "2"],
        3,
        &[
            "    5     0.000000         450 M     3  single      slice 3",
            "      = access unit of 5, 7 bytes: not known to be whole",
            "      ! lost: 1 packet before 7",
            "    7     0.002000         630 M     3  single      slice 3",
            "      ! it came behind a later packet",
            "      = access unit of 7, 7 bytes: 1 missing, not known to be whole",
            "    8     0.001000         720 M     3  single      slice 3",
            "      = access unit of 8, 7 bytes: whole",
            "    9     0.003000         810 M     3  single      slice 3",
            "      = access unit of 9, 7 bytes: whole",
            "      ! 9 came twice",
            "   10     0.005000         900 M     2  single      ",
            "      ! refused: type 30 is undefined or reserved; a payload needs type 1 to 23, 24 (STAP-A) or 28 (FU-A) (RFC 6184, 5.2)",
            "lost: 1 packet: 1 before 7",
            "1 packet: passed over, come twice",
            "1 packet: put before those that came earlier",
            "refused: 1 packet, the first is 10: type 30 is undefined or reserved; a payload needs type 1 to 23, 24 (STAP-A) or 28 (FU-A) (RFC 6184, 5.2)",
            "2 access units: known to be whole",
            "0 access units: clean: nothing that a decoder needs is missing",
            "5 packets of 14 bytes, 4 access units, 0 keyframes",
        ],
    );
}

/// By codec and options a packet that is refused, and what is said of it.
const REFUSED: [(&str, &[&str], &[u8], &str); 12] = [
    (
        "h264",
        &[],
        &[0x7c],
        "an FU-A needs an FU indicator and an FU header, a byte each (RFC 6184, 5.8)",
    ),
    (
        "h264",
        &[],
        &[0x19, 0, 0],
        "a STAP-B, type 25, is of the interleaved mode",
    ),
    (
        "h265",
        &[],
        &[0x48, 1],
        "a unit needs a byte behind it to be taken (RFC 7798, 1.1.4)",
    ),
    (
        "h265",
        &[],
        &[0x60, 1, 0, 3, 0x40, 1, 1],
        "an AP needs two NAL units or more",
    ),
    (
        "h265",
        &[],
        &[0x62, 1, 0x93],
        "an FU needs a byte of FU payload",
    ),
    (
        "h265",
        &[],
        &[0x64, 1, 0x26, 0x30, 1],
        "a PACI packet needs its fields",
    ),
    (
        "h265",
        &["--donl"],
        &[0x02, 1, 0, 1],
        "needs DONL and a byte behind it (RFC 7798, 4.4.1)",
    ),
    (
        "h265",
        &[],
        &[0x82, 1, 9],
        "the forbidden_zero_bit of the payload header, is 1; it must be 0 (RFC 7798, 1.1.4)",
    ),
    (
        "h266",
        &[],
        &[0, 0xa9],
        "a unit needs a byte behind it to be taken (RFC 9328, 1.1.4)",
    ),
    (
        "h266",
        &[],
        &[0, 0xe1, 0, 3, 0, 1, 1],
        "an AP needs two NAL units or more",
    ),
    (
        "h266",
        &[],
        &[0, 0xe1, 0, 3, 0, 9, 1, 0, 2, 0, 0xe1],
        "an AP holds an AP or an FU",
    ),
    (
        "h266",
        &[],
        &[0x80, 9, 1],
        "the forbidden_zero_bit of the payload header, is 1; it must be 0 (RFC 9328, 1.1.4)",
    ),
];

/// Each way to be too short says what is missing, in the words of its section.
#[test]
fn what_refused_packets_lack() {
    for (codec, options, payload, said) in REFUSED {
        let folder = Folder::new();
        folder.write("in.pcap", &pcap_with(&packets(&[(0, true, payload)])));
        let ran = folder.run(&[&["inspect", "in.pcap", "--codec", codec], options].concat());
        assert!(
            ran.out.contains("! refused: ") && ran.out.contains(said),
            "{said}: {ran:#?}"
        );
    }
}

/// Where no packet has the marker, another timestamp begins an access unit.
#[test]
fn access_units_without_markers() {
    let sent: [(u32, bool, &[u8]); 4] = [
        (0, false, &[0x65, 0x88, 1]),
        (0, false, &[0x65, 0x42, 1]),
        (90, false, &[0x41, 0x9a, 1]),
        (180, false, &[0x65, 0x88, 1]),
    ];
    let folder = Folder::new();
    folder.write("in.pcap", &pcap_with(&packets(&sent)));
    let ran = folder.run(&["inspect", "in.pcap", "--summary"]);
    ran.says(0, &["4 packets of 12 bytes, 3 access units, 2 keyframes"]);
}

/// A packet that is refused came: it is not lost.
#[test]
fn refused_packets_are_not_lost() {
    let slice = |sequence: u16| Rtp::new(sequence, u32::from(sequence), true, &[0x41, 0x9a, 1]);
    let mut sent: Vec<Rtp> = [5, 6, 7, 9].map(slice).to_vec();
    sent[1].payload = vec![0x5e];
    let folder = Folder::new();
    folder.write("in.pcap", &pcap_with(&sent));
    let ran = folder.run(&["inspect", "in.pcap", "--summary"]);
    ran.says(
        3,
        &[
            "lost: 1 packet: 1 before 9",
            "refused: 1 packet, the first is 6",
        ],
    );
}

/// Nothing is lost by an end of sequence of two bytes, by which its access unit ends, nor by a PACSI (RFC 6190, 4.9).
#[test]
fn packets_that_bear_no_unit() {
    let h265: [(u32, bool, &[u8]); 4] = [
        (
            0,
            false,
            &[
                0x60, 1, 0, 3, 0x40, 1, 0x0c, 0, 3, 0x42, 1, 1, 0, 3, 0x44, 1, 0xc1,
            ],
        ),
        (0, false, &[0x26, 1, 0xac]),
        (0, true, &[0x48, 1]),
        (90, true, &[0x26, 1, 0xac]),
    ];
    let h264: [(u32, bool, &[u8]); 4] = [
        (0, false, &[0x7e, 0x86, 0x10, 0x2c]),
        (
            0,
            true,
            &[
                0x78, 0, 4, 0x67, 0x42, 0xc0, 0x1f, 0, 2, 0x68, 0xce, 0, 2, 0x65, 0x88,
            ],
        ),
        (90, false, &[0x7e, 0x86, 0x10, 0x2c]),
        (90, true, &[0x41, 0x9a, 1]),
    ];
    for (codec, sent) in [("h265", h265), ("h264", h264)] {
        let folder = Folder::new();
        folder.write("in.pcap", &pcap_with(&packets(&sent)));
        let ran = folder.run(&["inspect", "in.pcap", "--codec", codec]);
        ran.says(0, &["! refused: ", "2 access units: clean"]);
    }
}

/// A PACI packet whose extension has 17 bytes, so that PHSsize takes its highest bit (RFC 7798, 4.4.4).
#[test]
fn a_long_extension() {
    let paci = [&[0x64, 1, 0x27, 0x10][..], &[9; 17], &[0xaf, 1, 2]].concat();
    let folder = Folder::new();
    folder.write("in.pcap", &pcap_with(&packets(&[(0, true, &paci)])));
    let ran = folder.run(&["inspect", "in.pcap", "--codec", "h265"]);
    ran.says(0, &["PACI        IDR_W_RADL 5  keyframe"]);
}
