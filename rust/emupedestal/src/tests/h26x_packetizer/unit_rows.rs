//! Access units as text, and the packets of all their units: `bindings/streams/sent_units.txt`, which says how it is
//! written, and which C, Go and Python walk too.

use crate::tests::{bytes, payload};
use crate::{Codec, CodecPacketizer, EveryUnitError, Packets, PacketsSize, Packing, WhyRefused};

const TEXT: &str = include_str!(concat!(
    env!("CARGO_MANIFEST_DIR"),
    "/../../bindings/streams/sent_units.txt"
));

/// Packets or a refusal as the text has them.
fn said(made: Result<Option<Vec<Vec<u8>>>, EveryUnitError>) -> String {
    match made {
        Ok(packets) => {
            let digits = |byte: &u8| format!("{byte:02x}");
            let packets = packets.expect("no box");
            let packets = packets.iter().map(|it| it.iter().map(digits).collect());
            packets.collect::<Vec<String>>().join(" ")
        }
        Err(EveryUnitError::Unit(unit)) => {
            let code = match unit.why {
                WhyRefused::WithoutHeader => 15,
                WhyRefused::Forbidden => 16,
                WhyRefused::OfPacketType => 17,
                WhyRefused::TooLong => 18,
            };
            format!("! {code} {} {}", unit.place, unit.len)
        }
        Err(EveryUnitError::OutOfMemory) => panic!("memory"),
    }
}

#[test]
fn units_of_the_text() {
    let mut count = 0;
    for row in TEXT.lines().filter(|row| !row.starts_with('#')) {
        let columns: Vec<&str> = row.split('|').map(str::trim).collect();
        let [codec, packing, mtu, units, wanted] = columns[..] else {
            panic!("{row}");
        };
        let (codec, donl) = codec.split_at(4);
        let codec = match codec {
            "h264" => Codec::H264,
            "h265" => Codec::H265,
            _ => Codec::H266,
        };
        let [mut end, mut other, mut placed] = [(); 3].map(|()| CodecPacketizer::new(codec));
        for it in [&mut end, &mut other, &mut placed] {
            it.with_donl(!donl.is_empty());
        }
        let (packing, delimiters) = match packing.strip_suffix(" without delimiters") {
            Some(packing) => (packing, false),
            None => (packing, true),
        };
        other.with_delimiters(delimiters);
        placed.with_delimiters(delimiters);
        let packing = match packing {
            "together" => Packing::Together,
            "before slices" => Packing::BeforeSlices,
            "apart" => Packing::Apart,
            _ => Packing::Single,
        };
        let mtu = mtu.parse().expect(row);
        let units: Vec<&str> = units.split_whitespace().collect();
        let list: Vec<Vec<u8>> = units.iter().map(|unit| bytes(unit)).collect();
        let list: Vec<&[u8]> = list.iter().map(Vec::as_slice).collect();
        let text = payload(&units);
        if delimiters {
            assert_eq!(said(end.packetize_units(packing, mtu, &list)), wanted);
        }
        let made = other.packetize_access_unit(packing, mtu, &text);
        assert_eq!(said(made), wanted, "{row}");
        let mut into = Packets::with_headroom(2);
        let size = placed.access_unit_size(packing, mtu, &text, 2);
        let made = placed.packetize_access_unit_into(packing, mtu, &text, &mut into);
        let told = size.map(|size| {
            let counted = PacketsSize {
                packets: into.len(),
                bytes: into.bytes().len(),
            };
            assert_eq!(size, Some(counted), "{row}");
            Some(into.iter().map(<[u8]>::to_vec).collect())
        });
        assert_eq!(made.err(), told.as_ref().err().copied(), "{row}");
        assert_eq!(said(told), wanted, "{row}");
        count += 1;
    }
    assert_eq!(count, 54);
}
