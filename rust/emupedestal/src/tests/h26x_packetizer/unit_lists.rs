//! Every unit of a list in packets: together where they fit (RFC 6184, 5.7.1; RFC 7798, 4.4.2; RFC 9328, 4.3.2).

use super::buffers::has;
use crate::proved::h26x_codec::{EveryUnitError, PacketBuffer, Packing, RefusedUnit, WhyRefused};
use crate::proved::h26x_packetizer::{EveryFormat, PayloadPacketizer};
use crate::proved::h264_payload::H264Packetizer;
use crate::proved::h265_payload::H265Packetizer;
use crate::proved::h266_payload::H266Packetizer;
use crate::tests::list;

use Packing::{Apart, BeforeSlices, Single, Together};

/// How units share packets, a limit, the units, and their packets.
type Row = (Packing, usize, &'static str, &'static str);

/// Sends the units of rows one after the other, as packets of their own and in one buffer.
#[track_caller]
fn send<C: EveryFormat>(new: impl Fn() -> PayloadPacketizer<C>, rows: &[Row]) {
    let (mut it, mut into) = (new(), new());
    let mut buffer = PacketBuffer::new(12);
    for &(packing, limit, units, packets) in rows {
        let units = list(units);
        let units: Vec<&[u8]> = units.iter().map(Vec::as_slice).collect();
        let packets = list(packets);
        let made = it.packetize_units(packing, limit, &units);
        assert_eq!(made, Ok(packets.clone()));
        buffer.clear();
        let appended = into.packetize_units_into(packing, limit, &units, &mut buffer);
        assert_eq!(appended, Ok(()));
        has(&buffer, &packets);
    }
}

#[test]
fn of_h264() {
    send(
        H264Packetizer::new,
        &[
            (Together, 100, "", ""),
            (Together, 100, "41bb", "41bb"),
            // Three of two bytes take 13; the greatest NRI is that of the SPS.
            (
                Together,
                13,
                "09f0 67aa 68bb 6501",
                "78000209f0000267aa000268bb 6501",
            ),
            (
                Together,
                12,
                "09f0 67aa 68bb 650102030405",
                "78000209f0000267aa 68bb 650102030405",
            ),
            (
                Together,
                12,
                "09f0 67aa 68bb 6501",
                "78000209f0000267aa 78000268bb00026501",
            ),
            (
                BeforeSlices,
                100,
                "67aa 68bb 6501 4102",
                "78000267aa000268bb 6501 4102",
            ),
            (Apart, 100, "67aa 68bb", "67aa 68bb"),
            (Single, 2, "67aa 68bb", "67aa 68bb"),
            // A unit in fragments stands between two that go alone.
            (
                Together,
                5,
                "6701 65010203040506 4102",
                "6701 7c85010203 7c45040506 4102",
            ),
        ],
    );
}

#[test]
fn of_h265() {
    let rows: [Row; 4] = [
        (Together, 12, "40010c 420101", "6001000340010c0003420101"),
        (Together, 11, "40010c 420101", "40010c 420101"),
        // The lowest temporal id is that of the second, and the lowest layer that of both.
        (Together, 100, "020baa 0209bb", "60090003020baa00030209bb"),
        // An end of sequence of two bytes goes in an aggregate.
        (Together, 100, "0201aa 4801", "600100030201aa00024801"),
    ];
    send(H265Packetizer::new, &rows);
}

#[test]
fn of_h265_with_numbers() {
    let new = || {
        let mut it = H265Packetizer::new();
        it.with_donl(true);
        it
    };
    let rows: [Row; 3] = [
        (
            Together,
            15,
            "40010c 420101",
            "60010000000340010c000003420101",
        ),
        (Together, 14, "40010c 420101", "400100020c 4201000301"),
        (Apart, 100, "0201aa", "02010004aa"),
    ];
    send(new, &rows);
}

#[test]
fn of_h266() {
    let rows: [Row; 2] = [
        (Together, 12, "0079bb 0081cc", "00e100030079bb00030081cc"),
        (
            BeforeSlices,
            100,
            "0079bb 0081cc 0009dd",
            "00e100030079bb00030081cc 0009dd",
        ),
    ];
    send(H266Packetizer::new, &rows);
}

#[test]
fn of_h266_with_numbers() {
    let new = || {
        let mut it = H266Packetizer::new();
        it.with_donl(true);
        it
    };
    let rows: [Row; 2] = [
        (
            Together,
            14,
            "0079bb 0081cc",
            "00e1000000030079bb00030081cc",
        ),
        (Together, 13, "0079bb 0081cc", "00790002bb 00810003cc"),
    ];
    send(new, &rows);
}

/// The first unit that can't go is named, and nothing was sent: the next call's numbers go on from before.
#[test]
fn refused() {
    use WhyRefused::{Forbidden, OfPacketType, TooLong, WithoutHeader};
    let rows: [(Packing, usize, &str, usize, usize, WhyRefused); 8] = [
        (Together, 100, "0201aa 02", 1, 1, WithoutHeader),
        (Together, 100, "0201aa -", 1, 0, WithoutHeader),
        (Together, 100, "8201aa 02", 0, 3, Forbidden),
        (Together, 100, "0201aa 6001aa", 1, 3, OfPacketType),
        (Together, 100, "6201aa", 0, 3, OfPacketType),
        (Together, 100, "6401aa", 0, 3, OfPacketType),
        (Together, 5, "0201aa 0201aabb", 1, 4, TooLong),
        (Single, 6, "0201aabbcc", 0, 5, TooLong),
    ];
    let mut it = H265Packetizer::new();
    it.with_donl(true);
    let mut buffer = PacketBuffer::new(0);
    for (packing, limit, units, place, len, why) in rows {
        let units = list(units);
        let units: Vec<&[u8]> = units.iter().map(Vec::as_slice).collect();
        let error = EveryUnitError::Unit(RefusedUnit { place, len, why });
        let made = it.packetize_units(packing, limit, &units);
        assert_eq!(made, Err(error));
        let appended = it.packetize_units_into(packing, limit, &units, &mut buffer);
        assert_eq!(appended, Err(error));
        assert!(buffer.len() == 0);
    }
    let made = it.packetize_units(Together, 100, &[&[2, 1, 0xaa]]);
    assert_eq!(made, Ok(list("02010000aa")));
}
