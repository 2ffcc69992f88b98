//! Packets that are appended to one buffer.

use crate::PacketError;
use crate::proved::h26x_codec::{AnyPacketizer, Codec, PacketBuffer};
use crate::refusing::{insist, some_refused, within_bytes, without_memory};
use crate::{h264, h265, h266};

/// How bytes are sent.
#[derive(Clone, Copy)]
enum How {
    /// As a payload, in which units are searched.
    Payload,
    /// As one unit as it is.
    Unit,
}

/// How bytes are sent, a limit, and the bytes.
type Step = (How, usize, &'static [u8]);

/// The codec of a packetizer and whether it numbers units, steps, and the packets of all of them.
struct Run {
    codec: Codec,
    has_donl: bool,
    steps: &'static [Step],
    packets: &'static [&'static [u8]],
}

/// The packetizer of a run.
fn packetizer(run: &Run) -> AnyPacketizer {
    AnyPacketizer::new(run.codec, run.has_donl)
}

/// Appends the packets of a step.
fn append(
    it: &mut AnyPacketizer,
    &(how, mtu, bytes): &Step,
    into: &mut PacketBuffer,
) -> Result<(), PacketError> {
    match how {
        How::Payload => it.packetize_into(mtu, bytes, into),
        How::Unit => it.packetize_unit_into(mtu, bytes, into),
    }
}

/// The packets of a buffer, by their places.
fn packets_of(buffer: &PacketBuffer) -> Vec<&[u8]> {
    (0..buffer.len())
        .map(|place| buffer.packet(place))
        .collect()
}

/// Appends the packets of a run, each request refused before, and compares them. A refusal leaves those that stood
/// there. What waits, and the next number, show in those of later steps.
#[track_caller]
fn append_run(mut it: AnyPacketizer, run: &Run) {
    let mut buffer = PacketBuffer::new(12);
    some_refused(|| {
        for step in run.steps {
            let before = buffer.len();
            let kept = |into: &PacketBuffer| packets_of(into) == run.packets[..before];
            let answer = insist(&mut buffer, |into| append(&mut it, step, into), kept);
            assert_eq!(answer, Ok(()));
        }
    });
    assert_eq!(packets_of(&buffer), run.packets);
}

/// A PPS and a unit in fragments, an SPS as it is and one that waits, and the sets before a unit.
const H264: Run = Run {
    codec: Codec::H264,
    has_donl: false,
    steps: &[
        (
            How::Payload,
            5,
            &[0, 0, 1, 8, 9, 0, 0, 1, 0x65, 1, 2, 3, 4, 5, 6],
        ),
        (How::Unit, 9, &[7, 5]),
        (How::Payload, 9, &[7, 6]),
        (How::Unit, 5, &[0x65, 1, 2, 3, 4, 5, 6]),
        (How::Payload, 9, &[5]),
    ],
    packets: &[
        &[0x7c, 0x85, 1, 2, 3],
        &[0x7c, 0x45, 4, 5, 6],
        &[7, 5],
        &[0x7c, 0x85, 1, 2, 3],
        &[0x7c, 0x45, 4, 5, 6],
        &[0x78, 0, 2, 7, 6, 0, 2, 8, 9],
        &[5],
    ],
};

/// Sets that wait, a unit as it is, and the sets before a unit.
const H265: Run = Run {
    codec: Codec::H265,
    has_donl: false,
    steps: &[
        (
            How::Payload,
            17,
            &[
                0, 0, 1, 0x40, 1, 0x0c, 0, 0, 1, 0x42, 1, 1, 0, 0, 1, 0x44, 1, 0xc1,
            ],
        ),
        (How::Unit, 4, &[0x26, 1, 0xaa, 0xbb, 0xcc]),
        (How::Payload, 17, &[0x26, 1, 0xaf]),
    ],
    packets: &[
        &[0x62, 1, 0x93, 0xaa],
        &[0x62, 1, 0x13, 0xbb],
        &[0x62, 1, 0x53, 0xcc],
        &[
            0x60, 1, 0, 3, 0x40, 1, 0x0c, 0, 3, 0x42, 1, 1, 0, 3, 0x44, 1, 0xc1,
        ],
        &[0x26, 1, 0xaf],
    ],
};

/// Units with numbers.
const H265_NUMBERED: Run = Run {
    codec: Codec::H265,
    has_donl: true,
    steps: &[
        (How::Payload, 5, &[2, 1, 0xaa]),
        (How::Unit, 6, &[2, 1, 0xaa, 0xbb, 0xcc]),
        (How::Payload, 5, &[2, 1, 0xaa]),
    ],
    packets: &[
        &[2, 1, 0, 0, 0xaa],
        &[0x62, 1, 0x81, 0, 1, 0xaa],
        &[0x62, 1, 0x41, 0xbb, 0xcc],
        &[2, 1, 0, 2, 0xaa],
    ],
};

/// Sets that wait, a unit as it is, and the sets before a unit.
const H266: Run = Run {
    codec: Codec::H266,
    has_donl: false,
    steps: &[
        (
            How::Payload,
            1200,
            &[0, 0, 1, 0, 0x79, 0xbb, 0, 0, 1, 0x80, 0x81, 0xcc],
        ),
        (How::Unit, 4, &[0, 9, 0xaa, 0xaa, 0xaa]),
        (How::Payload, 1200, &[0, 0x39, 0xdd]),
    ],
    packets: &[
        &[0, 0xe9, 0x81, 0xaa],
        &[0, 0xe9, 1, 0xaa],
        &[0, 0xe9, 0x41, 0xaa],
        &[0x80, 0xe1, 0, 3, 0, 0x79, 0xbb, 0, 3, 0x80, 0x81, 0xcc],
        &[0, 0x39, 0xdd],
    ],
};

/// Units with numbers.
const H266_NUMBERED: Run = Run {
    codec: Codec::H266,
    has_donl: true,
    steps: &[
        (How::Payload, 5, &[0, 9, 0xaa]),
        (How::Unit, 6, &[0, 9, 0xaa, 0xbb, 0xcc]),
        (How::Payload, 5, &[0, 9, 0xaa]),
    ],
    packets: &[
        &[0, 9, 0, 0, 0xaa],
        &[0, 0xe9, 0x81, 0, 1, 0xaa],
        &[0, 0xe9, 0x41, 0xbb, 0xcc],
        &[0, 9, 0, 2, 0xaa],
    ],
};

const RUNS: [Run; 5] = [H264, H265, H265_NUMBERED, H266, H266_NUMBERED];

#[test]
fn packets_appended() {
    for run in &RUNS {
        append_run(packetizer(run), run);
    }
}

/// A long unit and many short ones are appended, and no list is asked for that is more than twice as long as what comes
/// into it.
#[test]
fn packets_in_memory_of_their_length() {
    const LEN: usize = 1_200_000;
    for run in [&H264, &H265, &H265_NUMBERED, &H266, &H266_NUMBERED] {
        let header: &[u8] = match run.codec {
            Codec::H264 => &[0x61],
            Codec::H265 => &[2, 1],
            Codec::H266 => &[0, 9],
        };
        let unit = |len: usize| [header, &vec![7; len - header.len()]].concat();
        let short = [&[0, 0, 1][..], &unit(97)].concat();
        let (long, many) = (unit(LEN), short.repeat(LEN / short.len()));
        let mut it = packetizer(run);
        let mut buffer = PacketBuffer::new(12);
        // (fragments take a few bytes more than the unit, and so do headrooms)
        let appended = within_bytes(2 * (LEN + LEN / 50), || {
            it.packetize_unit_into(1200, &long, &mut buffer)
        });
        assert_eq!(appended, Ok(()));
        buffer.clear();
        let appended = within_bytes(3 * LEN, || it.packetize_into(1200, &many, &mut buffer));
        assert_eq!(appended, Ok(()));
        assert_eq!(buffer.len(), LEN / short.len());
    }
}

/// Appends nothing of these payloads, nor of these units.
#[track_caller]
fn append_nothing(run: &Run, payloads: &[(usize, &[u8])], units: &[(usize, &[u8])]) {
    let mut it = without_memory(|| packetizer(run));
    let mut buffer = without_memory(|| PacketBuffer::new(12));
    for (mtu, payload) in payloads {
        let answer = without_memory(|| it.packetize_into(*mtu, payload, &mut buffer));
        assert_eq!(answer, Ok(()));
    }
    for (mtu, unit) in units {
        let answer = without_memory(|| it.packetize_unit_into(*mtu, unit, &mut buffer));
        assert_eq!(answer, Ok(()));
    }
    without_memory(|| {
        buffer.truncate(0);
        buffer.clear();
        assert!(buffer.len() == 0 && buffer.headroom() == 12 && buffer.packet_ends().is_empty());
    });
}

/// Units without a header, and one for whose fragments there is no room.
const UNSENT_OF_H264: [(usize, &[u8]); 3] = [(1500, &[]), (0, &[0x65]), (2, &[0x65, 1, 2])];

/// Units without a whole header, and one for whose fragments there is no room, with numbers or without.
const UNSENT_OF_OTHERS: [(usize, &[u8]); 4] = [
    (1500, &[]),
    (1500, &[2]),
    (3, &[2, 1, 0xaa]),
    (3, &[2, 1, 0xaa, 0xbb]),
];

#[test]
fn nothing_appended_without_memory() {
    append_nothing(&H264, &h264::UNSENT, &UNSENT_OF_H264);
    append_nothing(&H265, &h265::UNSENT, &UNSENT_OF_OTHERS);
    append_nothing(&H265_NUMBERED, &h265::UNSENT, &UNSENT_OF_OTHERS);
    append_nothing(&H266, &h266::UNSENT, &UNSENT_OF_OTHERS);
    append_nothing(&H266_NUMBERED, &h266::UNSENT, &UNSENT_OF_OTHERS);
}

/// Appends the packets of these steps to a buffer, and once more where it is cleared: what is kept since takes them.
#[track_caller]
fn fill_again(codec: Codec, steps: &[Step]) {
    let mut it = AnyPacketizer::new(codec, true);
    let mut buffer = PacketBuffer::new(12);
    let mut fill = || {
        buffer.clear();
        for step in steps {
            append(&mut it, step, &mut buffer).expect("packets");
        }
        buffer.len()
    };
    fill();
    assert!(fill() > 3);
    assert!(without_memory(fill) > 3);
}

#[test]
fn packets_into_a_kept_buffer() {
    fill_again(
        Codec::H264,
        &[
            (How::Payload, 3, &[0x65, 1, 2, 3]),
            (How::Unit, 1200, &[0x67; 60]),
            (How::Payload, 1200, &[0x61; 60]),
        ],
    );
    fill_again(
        Codec::H265,
        &[
            (How::Payload, 6, &[2, 1, 0xaa, 0xbb, 0xcc]),
            (How::Unit, 1200, &[0x42; 60]),
            (How::Payload, 1200, &[2; 60]),
        ],
    );
    fill_again(
        Codec::H266,
        &[
            (How::Payload, 6, &[0, 9, 0xaa, 0xbb, 0xcc]),
            (How::Unit, 1200, &[0x79; 60]),
            (How::Payload, 1200, &[9; 60]),
        ],
    );
}
