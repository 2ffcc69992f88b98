//! What is sent: units behind start codes; and packets that no packetizer makes.

use crate::format::Format;

const START_CODE: [u8; 4] = [0, 0, 0, 1];
const MEGABYTE: usize = 1_000_000;
/// The lengths of parameter sets: of a VPS, of an SPS, of a PPS.
const SETS: [usize; 3] = [24, 24, 5];

/// A payload, and what it is called.
pub struct Payload {
    pub name: &'static str,
    pub bytes: Vec<u8>,
    /// Whether it is one coded unit behind a start code.
    is_unit: bool,
}

impl Payload {
    /// The unit as it is, of a payload that is one.
    pub fn unit(&self) -> Option<&[u8]> {
        self.is_unit.then(|| &self.bytes[START_CODE.len()..])
    }
}

/// The payloads that are timed, in a format's own headers.
pub fn payloads(format: Format) -> Vec<Payload> {
    let mut random = Random::default();
    let slice = format.headers().slice;
    let mut units = |count, len| {
        (0..count)
            .flat_map(|_| unit(slice, random.coded(len - slice.len())))
            .collect()
    };
    let frame = units(1, 8_000);
    let unit_of_200_kb = units(1, 200_000);
    let hundreds = units(50, 100);
    let twenties = units(50, 20);
    let long = MEGABYTE - START_CODE.len() - slice.len();
    let one_unit = [
        ("a frame of 8 kB", frame),
        ("a unit of 200 kB", unit_of_200_kb),
    ];
    let others = [
        (
            "an IDR picture of 200 kB with its sets",
            picture(format, &mut random),
        ),
        ("fifty units of 100 bytes", hundreds),
        ("fifty units of 20 bytes", twenties),
        ("a megabyte of zeros", unit(slice, vec![0; long])),
        (
            "a megabyte of random bytes",
            unit(slice, random.bytes(long)),
        ),
        ("a megabyte of start codes", [0, 0, 1].repeat(MEGABYTE / 3)),
    ];
    let payload = |is_unit| {
        move |(name, bytes)| Payload {
            name,
            bytes,
            is_unit,
        }
    };
    let one_unit = one_unit.into_iter().map(payload(true));
    one_unit
        .chain(others.into_iter().map(payload(false)))
        .collect()
}

/// An aggregation packet of so many units of this length, each behind its length.
pub fn aggregate(format: Format, count: usize, len: usize) -> Vec<u8> {
    let mut random = Random::default();
    let headers = format.headers();
    let mut packet = headers.aggregate.to_vec();
    for i in 0..count {
        match (format.has_donl, i) {
            (true, 0) => packet.extend([0, 0]),
            (true, _) => packet.extend(headers.dond),
            (false, _) => {}
        }
        packet.extend(u16::try_from(len).expect("a short unit").to_be_bytes());
        packet.extend(headers.slice);
        packet.extend(random.coded(len - headers.slice.len()));
    }
    packet
}

/// A picture of one slice behind the parameter sets of its codec.
fn picture(format: Format, random: &mut Random) -> Vec<u8> {
    let headers = format.headers();
    let lengths = &SETS[SETS.len() - headers.sets.len()..];
    let mut bytes: Vec<u8> = headers
        .sets
        .iter()
        .zip(lengths)
        .flat_map(|(header, len)| unit(header, random.coded(len - header.len())))
        .collect();
    bytes.extend(unit(headers.idr, random.coded(200_000 - headers.idr.len())));
    bytes
}

/// A unit of this header and these bytes, behind a start code.
fn unit(header: &[u8], bytes: Vec<u8>) -> Vec<u8> {
    [&START_CODE, header, &bytes].concat()
}

/// Numbers that are the same in each run (xorshift).
struct Random(u64);

impl Default for Random {
    fn default() -> Self {
        Random(88_172_645_463_325_252)
    }
}

impl Random {
    fn byte(&mut self) -> u8 {
        self.0 ^= self.0 << 13;
        self.0 ^= self.0 >> 7;
        self.0 ^= self.0 << 17;
        (self.0 >> 32) as u8
    }

    /// Any bytes.
    fn bytes(&mut self, len: usize) -> Vec<u8> {
        (0..len).map(|_| self.byte()).collect()
    }

    /// Bytes as coded units have them: none under 4 stands behind two zeros, and the last is no zero.
    fn coded(&mut self, len: usize) -> Vec<u8> {
        let mut bytes = self.bytes(len);
        for i in 2..len {
            if bytes[i - 2..i] == [0, 0] {
                bytes[i] |= 4;
            }
        }
        if let Some(last) = bytes.last_mut() {
            *last |= 0x80;
        }
        bytes
    }
}
