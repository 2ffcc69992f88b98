//! Format parameters and payload types of SDP, read by the words of the RFCs and not by the crate's code.

use crate::held::held_by;
use crate::input::Input;
use emupedestal::access_units::{is_slice_type, unit_type};
use emupedestal::sdp::*;
use emupedestal::{Codec, units};

/// So many bytes more than a text of the same length may be held of what is read: the lists of a format's values.
const FRONT: isize = 4096;
/// So many bytes at most are held for each byte of a text: of a parameter `a` the lists of its name and its value, in a
/// list that doubles.
const EACH: isize = 64;

pub fn check(codec: Codec, input: &mut Input) {
    let text = String::from_utf8_lossy(input.bytes()).into_owned();
    let value = String::from_utf8_lossy(input.bytes()).into_owned();
    let which = usize::from(input.byte());
    match codec {
        Codec::H264 => check_format::<H264Parameter>(&text, &value, which),
        Codec::H265 => check_format::<H265Parameter>(&text, &value, which),
        Codec::H266 => check_format::<H266Parameter>(&text, &value, which),
    }
    check_units(&value);
    check_payload_type(&text);
    check_retransmission(&text);
}

/// What a stream says of itself, out of its bytes and out of its units, and whether these fit packets of their own.
pub fn check_stream(codec: Codec, input: &mut Input) {
    let limit = usize::from(input.byte());
    let payload = input.rest();
    let units: Vec<&[u8]> = units(codec, payload).collect();
    match codec {
        Codec::H264 => {
            let of_units = H264Parameters::of_units(&units);
            check_said(codec, H264Parameters::of_payload(payload), of_units, &units);
            let is_short = units.iter().all(|unit| unit.len() <= limit);
            assert_eq!(fits_single_units(payload, limit), is_short);
        }
        Codec::H265 => {
            let of_units = H265Parameters::of_units(&units);
            check_said(codec, H265Parameters::of_payload(payload), of_units, &units);
        }
        Codec::H266 => {
            let of_units = H266Parameters::of_units(&units);
            check_said(codec, H266Parameters::of_payload(payload), of_units, &units);
        }
    }
}

/// Both say the same; the sets are those before the first slice, by their types.
fn check_said<P: Parameter>(
    codec: Codec,
    said: Result<CodecParameters<P>, StreamError>,
    of_units: Result<CodecParameters<P>, StreamError>,
    units: &[&[u8]],
) {
    assert_eq!(said, of_units);
    let Ok(format) = said else {
        return;
    };
    check_written(&format);
    let type_of = |unit: &[u8]| unit_type(codec, unit);
    let is_slice = |unit: &&&[u8]| type_of(unit).is_some_and(|it| is_slice_type(codec, it));
    let before: Vec<&[u8]> = units
        .iter()
        .take_while(|it| !is_slice(it))
        .copied()
        .collect();
    let names: &[(&str, &[u8])] = match codec {
        Codec::H264 => &[("sprop-parameter-sets", &[7, 8])],
        Codec::H265 => &[
            ("sprop-vps", &[32]),
            ("sprop-sps", &[33]),
            ("sprop-pps", &[34]),
        ],
        Codec::H266 => &[
            ("sprop-vps", &[14]),
            ("sprop-sps", &[15]),
            ("sprop-pps", &[16]),
        ],
    };
    for (name, types) in names {
        let is_of = |unit: &&&[u8]| type_of(unit).is_some_and(|it| types.contains(&it));
        let wanted: Vec<Vec<u8>> = before.iter().filter(is_of).map(|it| it.to_vec()).collect();
        let parameter = P::of_name(name).expect("a known one");
        assert_eq!(format.units(parameter), Ok(wanted));
    }
}

/// The parameters of a text: parts between `;` that stand outside braces, none of them blank, and of each what stands
/// before its first `=` and behind it; nothing where a brace is left open.
fn pairs(text: &str) -> Option<Vec<(&str, &str)>> {
    let mut is_open = false;
    let parts = text.split(|c| {
        match c {
            '{' => is_open = true,
            '}' => is_open = false,
            _ => {}
        }
        c == ';' && !is_open
    });
    let parts: Vec<&str> = parts.map(str::trim_ascii).collect();
    let parts = parts.into_iter().filter(|it| !it.is_empty()).map(|part| {
        let (name, value) = part.split_once('=').unwrap_or((part, ""));
        (name.trim_ascii(), value.trim_ascii())
    });
    let pairs = parts.collect();
    (!is_open).then_some(pairs)
}

fn check_format<P: Parameter>(text: &str, value: &str, which: usize) {
    let (read, held) = held_by(|| text.parse::<CodecParameters<P>>());
    let Some(pairs) = pairs(text) else {
        assert_eq!(read, Err(ParametersError::OpenBrace));
        return;
    };
    match read {
        Ok(format) => {
            assert!(
                held <= FRONT + EACH * text.len() as isize,
                "{held} bytes are held"
            );
            check_read(&format, &pairs);
            check_written(&format);
            check_set(&format, value, which);
            if let Ok(own) = value.parse() {
                check_answer(&format, &own);
            }
        }
        Err(error) => {
            assert_eq!(held, 0, "what is refused leaves nothing");
            check_refused::<P>(error, &pairs);
        }
    }
}

/// Each value is where it belongs, and the others are in their order.
fn check_read<P: Parameter>(format: &CodecParameters<P>, pairs: &[(&str, &str)]) {
    let known = |it: &&(&str, &str)| P::of_name(it.0).is_some();
    for (name, value) in pairs.iter().filter(known) {
        let parameter = P::of_name(name).expect("a known one");
        assert_eq!(format.value(parameter), Some(*value));
        assert_eq!(format.value_or_default(parameter), Some(*value));
        let number = format.number(parameter);
        assert_eq!(format.number_or_default(parameter), number);
        // Of base 10, or of base 16 as `sprop-spatial-segmentation-idc`.
        let [ten, sixteen] = [10, 16].map(|base| u64::from_str_radix(value, base).ok());
        assert!(number.is_none() || number == ten || number == sixteen);
        if let Ok(units) = format.units(parameter) {
            assert!(units.is_empty() || write_units(&units).as_deref() == Ok(value));
        }
    }
    let given = P::all()
        .iter()
        .filter(|it| format.value(**it).is_some())
        .count();
    assert_eq!(given, pairs.iter().filter(known).count());
    let others = pairs.iter().filter(|it| !known(it)).copied();
    assert!(format.others().eq(others));
    assert_eq!(format.iter().count(), pairs.len());
}

/// What is written is read as the same, and its parameters are those in the order of the RFC.
fn check_written<P: Parameter>(format: &CodecParameters<P>) {
    let text = format.to_string();
    assert_eq!(text.parse().as_ref(), Ok(format));
    let pairs = pairs(&text).expect("braces are closed");
    assert!(format.iter().eq(pairs));
}

/// The first that is refused is told: what is before it is read.
fn check_refused<P: Parameter>(error: ParametersError, pairs: &[(&str, &str)]) {
    let ParametersError::Refused { place, fault } = error else {
        panic!("{error:?}");
    };
    let parameter = P::of_name(pairs[place].0);
    let is_given = |it: &(&str, &str)| P::of_name(it.0) == parameter;
    assert!(parameter.is_some());
    assert_eq!(fault == Fault::Twice, pairs[..place].iter().any(is_given));
    let before = pairs[..place]
        .iter()
        .map(|(name, value)| format!("{name}={value};"));
    assert!(
        before
            .collect::<String>()
            .parse::<CodecParameters<P>>()
            .is_ok()
    );
    let (name, value) = pairs[place];
    let alone = format!("{name}={value}").parse::<CodecParameters<P>>();
    let wanted = Err(ParametersError::Refused { place: 0, fault });
    assert!(fault == Fault::Twice || alone == wanted);
}

/// A value that is set is there, and the others stay; where it is refused all stays.
fn check_set<P: Parameter>(format: &CodecParameters<P>, value: &str, which: usize) {
    let parameter = P::all()[which % P::all().len()];
    let mut changed = format.clone();
    let without = |it: &CodecParameters<P>| {
        let mut it = it.clone();
        assert_eq!(it.remove(parameter), Ok(()));
        assert_eq!(it.value(parameter), None);
        it
    };
    match changed.set(parameter, value) {
        Ok(()) => {
            assert_eq!(changed.value(parameter), Some(value.trim_ascii()));
            assert_eq!(without(&changed), without(format));
            check_written(&changed);
        }
        Err(_) => assert_eq!(changed, *format),
    }
}

/// Parameters of an answer that depend on what the other end says of them.
const SETS: [&str; 7] = [
    "sprop-parameter-sets",
    "sprop-level-parameter-sets",
    "sprop-dci",
    "sprop-vps",
    "sprop-sps",
    "sprop-pps",
    "sprop-sei",
];

/// An answer is written and read as the same, has our own others, and is answered with itself but for its sets. An end
/// that takes units in any order answers the same where both send them as they are decoded, and else alone.
fn check_answer<P: Parameter>(offered: &CodecParameters<P>, own: &CodecParameters<P>) {
    let ours = std::slice::from_ref(own);
    let any_order = offered.answer_any_order(ours).expect("memory");
    let answer = offered.answer(ours).expect("memory");
    if is_out_of_order(offered) || is_out_of_order(own) {
        assert_eq!(answer, None);
        if let Some(answer) = any_order {
            check_written(&answer);
        }
        return;
    }
    assert_eq!(answer, any_order);
    let Some(answer) = answer else {
        return;
    };
    check_written(&answer);
    assert!(answer.others().eq(own.others()));
    let again = answer
        .answer(ours)
        .expect("memory")
        .expect("an answer to the answer");
    let is_set = |it: &(&str, &str)| SETS.contains(&it.0);
    let without = |it: &CodecParameters<P>| {
        let given = it.iter().filter(|it| !is_set(it));
        given
            .map(|(name, value)| format!("{name}={value};"))
            .collect::<String>()
    };
    assert_eq!(without(&again), without(&answer));
}

fn is_out_of_order<P: Parameter>(format: &CodecParameters<P>) -> bool {
    let above = |name, least| {
        let number = P::of_name(name).and_then(|it| format.number(it));
        number.is_some_and(|it| it > least)
    };
    match P::of_name("packetization-mode") {
        Some(_) => above("packetization-mode", 1),
        None => above("sprop-max-don-diff", 0),
    }
}

/// The bytes of base64 with its padding (RFC 4648, section 4), bit by bit.
fn bytes_of(text: &str) -> Option<Vec<u8>> {
    let digits = text
        .strip_suffix("==")
        .or(text.strip_suffix('='))
        .unwrap_or(text);
    let (mut bits, mut count, mut bytes) = (0_u32, 0, Vec::new());
    for digit in digits.bytes() {
        let value = match digit {
            b'A'..=b'Z' => digit - b'A',
            b'a'..=b'z' => digit - b'a' + 26,
            b'0'..=b'9' => digit - b'0' + 52,
            b'+' => 62,
            b'/' => 63,
            _ => return None,
        };
        (bits, count) = (bits << 6 | u32::from(value), count + 6);
        if count >= 8 {
            count -= 8;
            bytes.push((bits >> count) as u8);
            bits &= (1 << count) - 1;
        }
    }
    let is_whole = text.len() % 4 == 0 && bits == 0 && count < 6;
    is_whole.then_some(bytes)
}

fn check_units(text: &str) {
    let units: Vec<Option<Vec<u8>>> = text.split(',').map(bytes_of).collect();
    let is_none = |it: &Option<Vec<u8>>| it.as_ref().is_none_or(Vec::is_empty);
    let wanted = match units.iter().position(is_none) {
        None => Ok(units.into_iter().flatten().collect()),
        Some(place) if units[place].is_none() => Err(UnitsError::NotBase64 { place }),
        Some(place) => Err(UnitsError::Empty { place }),
    };
    assert_eq!(read_units(text), wanted);
    if let Ok(units) = wanted {
        assert_eq!(write_units(&units).as_deref(), Ok(text));
    }
}

/// `PAYLOAD-TYPE NAME/90000`, with white space at its ends and before the name: of a codec, or of what goes beside it.
fn check_payload_type(text: &str) {
    let (number, rest) = text
        .trim_ascii()
        .split_once(' ')
        .unwrap_or((text.trim_ascii(), ""));
    let number = payload_type_of(number);
    let (name, clock) = rest
        .trim_ascii()
        .split_once('/')
        .unwrap_or((rest.trim_ascii(), ""));
    let name = name.to_ascii_lowercase();
    let codec = match name.as_str() {
        "h264" => Some(Codec::H264),
        "h265" => Some(Codec::H265),
        "h266" => Some(Codec::H266),
        _ => None,
    };
    let beside = match name.as_str() {
        "rtx" => Some(RepairFormat::Rtx),
        "red" => Some(RepairFormat::Red),
        "ulpfec" => Some(RepairFormat::Ulpfec),
        "flexfec" => Some(RepairFormat::Flexfec),
        "flexfec-03" => Some(RepairFormat::Flexfec03),
        _ => None,
    };
    let map = wanted(number, codec, clock);
    let map = map.map(|(number, codec)| RtpMap::new(number, codec).expect("below 128"));
    assert_eq!(text.parse::<RtpMap>(), map);
    if let Ok(map) = map {
        let upper = name.to_ascii_uppercase();
        assert_eq!(
            map.to_string(),
            format!("{} {upper}/90000", map.payload_type())
        );
    }
    let map = wanted(number, beside, clock);
    let map = map.map(|(number, format)| RepairMap::new(number, format).expect("below 128"));
    assert_eq!(text.parse::<RepairMap>(), map);
    if let Ok(map) = map {
        assert_eq!(
            map.to_string(),
            format!("{} {name}/90000", map.payload_type())
        );
    }
}

fn wanted<T>(number: Option<u8>, of: Option<T>, clock: &str) -> Result<(u8, T), RtpMapError> {
    let number = number.ok_or(RtpMapError::PayloadType)?;
    let of = of.ok_or(RtpMapError::Encoding)?;
    match clock {
        "90000" => Ok((number, of)),
        _ => Err(RtpMapError::ClockRate),
    }
}

/// The number of 7 bits that a text of digits says.
fn payload_type_of(text: &str) -> Option<u8> {
    let is_digits = !text.is_empty() && text.bytes().all(|it| it.is_ascii_digit());
    let number = text.parse::<u8>().ok();
    number.filter(|it| is_digits && *it < 128)
}

/// `apt` and `rtx-time` (RFC 4588, 8.6): each once, a number of 7 bits and one of 64.
fn check_retransmission(text: &str) {
    let read = text.parse::<RtxFormat>();
    let all = pairs(text).unwrap_or_default();
    let values = |wanted: &str| {
        let named = all
            .iter()
            .filter(|it| it.0.eq_ignore_ascii_case(wanted))
            .map(|it| it.1);
        named.collect::<Vec<_>>()
    };
    let (types, times) = (values("apt"), values("rtx-time"));
    let time = times.first().map(|it| {
        let is_digits = !it.is_empty() && it.bytes().all(|it| it.is_ascii_digit());
        it.parse::<u64>().ok().filter(|_| is_digits)
    });
    let is_whole = pairs(text).is_some() && types.len() < 2 && times.len() < 2;
    match (types.first().map(|it| payload_type_of(it)), time, is_whole) {
        (Some(Some(number)), None, true) => assert_eq!(read.ok(), RtxFormat::new(number, None)),
        (Some(Some(number)), Some(Some(time)), true) => {
            assert_eq!(read.ok(), RtxFormat::new(number, Some(time)));
        }
        (None, None | Some(Some(_)), true) => assert_eq!(read, Err(RtxError::NoPayloadType)),
        _ => assert!(matches!(read, Err(RtxError::Parameters(_))), "{text}"),
    }
    if let Ok(format) = read {
        assert_eq!(format.to_string().parse(), Ok(format));
    }
}
