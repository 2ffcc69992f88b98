//! Tests of what is written by hand, beside `h26x.h` and `words.c`: the words, the version, the structs, and NULL.

mod handles;

use crate::proved::h26x_c::exports::*;
use crate::words::{h26x_codec_name, h26x_origin, h26x_strerror, h26x_version};
use core::ffi::{CStr, c_char};
use core::mem::offset_of;
use core::ptr::null_mut;

const HEADER: &str = include_str!("../../../bindings/include/h26x.h");
const WORDS: &str = include_str!("../../../bindings/library/words.c");

/// The number that the header gives a name.
fn number(name: &str) -> u32 {
    let mut words = HEADER.split(|c: char| !c.is_alphanumeric() && c != '_' && c != '=');
    while let Some(word) = words.next() {
        if word == name {
            let mut rest = words
                .clone()
                .filter(|word| !word.is_empty() && *word != "=");
            if let Some(Ok(it)) = rest.next().map(str::parse) {
                return it;
            }
        }
    }
    panic!("the header has no {name}");
}

fn text(at: *const c_char) -> Option<String> {
    // SAFETY: what stands there is a literal of `words`.
    (!at.is_null()).then(|| unsafe { CStr::from_ptr(at) }.to_str().unwrap().to_owned())
}

/// The cases of a function of `words.c`: the name of each, and what is answered, `None` for NULL.
fn cases(function: &str) -> Vec<(Option<&'static str>, Option<String>)> {
    let body = WORDS.split(function).nth(1).unwrap();
    let body = body.split("\n}").next().unwrap();
    let (mut named, mut out) = (None, Vec::new());
    for line in body.lines().map(str::trim) {
        if let Some(name) = line.strip_prefix("case ") {
            named = Some(name.trim_end_matches(':'));
        } else if line == "default:" {
            named = None;
        } else if let Some(answer) = line.strip_prefix("return ") {
            let answer = answer.trim_end_matches(';');
            out.push((
                named,
                (answer != "NULL").then(|| answer.trim_matches('"').to_owned()),
            ));
        }
    }
    out
}

#[test]
fn words_of_codes() {
    let cases = cases("*h26x_strerror");
    assert_eq!(cases.len(), 76);
    for (name, answer) in cases {
        assert_eq!(
            text(h26x_strerror(name.map_or(u32::MAX, number))),
            answer,
            "{name:?}"
        );
    }
}

#[test]
fn words_of_codecs() {
    let cases = cases("*h26x_codec_name");
    assert_eq!(cases.len(), 4);
    for (name, answer) in cases {
        assert_eq!(
            text(h26x_codec_name(name.map_or(0, number))),
            answer,
            "{name:?}"
        );
    }
}

#[test]
fn version_of_the_header() {
    let part = |name| number(&format!("H26X_VERSION_{name}"));
    assert_eq!(
        h26x_version(),
        part("MAJOR") << 16 | part("MINOR") << 8 | part("PATCH")
    );
}

#[test]
fn origin_in_three_words() {
    let told = text(h26x_origin()).unwrap();
    let words: Vec<_> = told.split(' ').collect();
    assert_eq!(words[..2], ["source", env!("CARGO_PKG_VERSION")]);
    assert!(
        words.len() == 3 && words[2].starts_with(std::env::consts::ARCH),
        "{told}"
    );
}

#[test]
fn structs_of_the_header() {
    let word = size_of::<usize>();
    assert_eq!((size_of::<Handle>(), align_of::<Handle>()), (word, word));
    assert_eq!(
        (size_of::<ConstHandle>(), align_of::<ConstHandle>()),
        (word, word)
    );
    assert_eq!((size_of::<Place>(), align_of::<Place>()), (word, word));
    assert_eq!(
        (offset_of!(Refusal, first), offset_of!(Refusal, second)),
        (0, word)
    );
    assert_eq!(size_of::<Refusal>(), 2 * word);
    assert_eq!((offset_of!(Shown, kind), offset_of!(Shown, header)), (0, 4));
    assert_eq!((offset_of!(Shown, word), offset_of!(Shown, parts)), (6, 8));
    assert_eq!(size_of::<Shown>(), 8 + word);
}

#[test]
fn access_units_of_the_header() {
    let word = size_of::<usize>();
    assert_eq!(
        (offset_of!(UnitTold, len), offset_of!(UnitTold, timestamp)),
        (0, word)
    );
    assert_eq!(
        (offset_of!(UnitTold, missing), offset_of!(UnitTold, first)),
        (word + 4, word + 8)
    );
    assert_eq!(
        (offset_of!(UnitTold, last), offset_of!(UnitTold, extra)),
        (word + 10, word + 12)
    );
    assert_eq!(
        (
            offset_of!(UnitTold, is_whole),
            offset_of!(UnitTold, is_clean)
        ),
        (word + 13, word + 14)
    );
    assert_eq!(
        (
            offset_of!(UnitTold, is_disposable),
            offset_of!(UnitTold, continues)
        ),
        (word + 15, word + 16)
    );
    assert_eq!(size_of::<UnitTold>(), (word + 17).next_multiple_of(word));
}

#[test]
fn settings_and_counts_of_the_header() {
    let word = size_of::<usize>();
    assert_eq!(
        (offset_of!(SoFarTold, len), offset_of!(SoFarTold, timestamp)),
        (0, word)
    );
    assert_eq!(offset_of!(SoFarTold, extra), word + 4);
    assert_eq!(size_of::<SoFarTold>(), (word + 5).next_multiple_of(word));
    assert_eq!(
        (offset_of!(Config, codec), offset_of!(Config, max_wait)),
        (0, 4)
    );
    assert_eq!(
        (offset_of!(Config, begin_wait), offset_of!(Config, window)),
        (8, 12)
    );
    assert_eq!(
        (offset_of!(Config, far_away), offset_of!(Config, far_behind)),
        (14, 16)
    );
    assert_eq!(
        (offset_of!(Config, numbers), offset_of!(Config, avc)),
        (18, 19)
    );
    assert_eq!(offset_of!(Config, has_sets), 20);
    let limits = 21usize.next_multiple_of(word);
    assert_eq!(
        (
            offset_of!(Config, held_limit),
            offset_of!(Config, run_limit)
        ),
        (limits, limits + word)
    );
    assert_eq!(
        (offset_of!(Config, unit_limit), size_of::<Config>()),
        (limits + 2 * word, limits + 3 * word)
    );
    assert_eq!(
        (offset_of!(Counts, lost), offset_of!(Counts, units_given_up)),
        (8, 80)
    );
    assert_eq!(
        (
            offset_of!(Counts, texts_given_up),
            offset_of!(Counts, no_unit)
        ),
        (88, 96)
    );
    assert_eq!(
        (offset_of!(Counts, unbelieved), size_of::<Counts>()),
        (112, 120)
    );
}

#[test]
fn numbers_of_sdp_of_the_header() {
    let word = size_of::<usize>();
    assert_eq!(
        (
            offset_of!(ConstraintNumbers, flags),
            offset_of!(ConstraintNumbers, len)
        ),
        (0, 8)
    );
    assert_eq!(offset_of!(ConstraintNumbers, frame_only), 8 + word);
    assert_eq!(offset_of!(ConstraintNumbers, multilayer), 9 + word);
    assert_eq!(offset_of!(ConstraintNumbers, general), 10 + word);
    assert_eq!(
        (
            offset_of!(PointNumbers, spatial_segmentation),
            offset_of!(PointNumbers, tier_flag)
        ),
        (0, 8)
    );
    assert_eq!(
        (
            offset_of!(PointNumbers, level_id),
            offset_of!(PointNumbers, max_lsr)
        ),
        (16, 24)
    );
    assert_eq!(
        (
            offset_of!(PointNumbers, max_lps),
            offset_of!(PointNumbers, max_br)
        ),
        (32, 40)
    );
    assert_eq!(
        (
            offset_of!(PointNumbers, tool),
            offset_of!(PointNumbers, has_tier_flag)
        ),
        (48, 49)
    );
    assert_eq!(
        (
            offset_of!(PointNumbers, has_level_id),
            offset_of!(PointNumbers, has_max_lsr)
        ),
        (50, 51)
    );
    assert_eq!(
        (
            offset_of!(PointNumbers, has_max_lps),
            offset_of!(PointNumbers, has_max_br)
        ),
        (52, 53)
    );
    assert_eq!(size_of::<PointNumbers>(), 56);
}

#[test]
fn structs_of_many_packets() {
    let word = size_of::<usize>();
    let payload = [
        offset_of!(RtpPayload, begin),
        offset_of!(RtpPayload, end),
        offset_of!(RtpPayload, timestamp),
        offset_of!(RtpPayload, sequence),
        offset_of!(RtpPayload, marker),
        size_of::<RtpPayload>(),
    ];
    let first = 2 * word;
    assert_eq!(payload, [0, word, first, first + 4, first + 6, first + 8]);
    let told = [
        offset_of!(PushTold, pushed),
        offset_of!(PushTold, behind),
        size_of::<PushTold>(),
    ];
    assert_eq!(told, [0, 4, 8]);
    let fields = [
        offset_of!(ReceivedTold, written),
        offset_of!(ReceivedTold, why),
        offset_of!(ReceivedTold, code),
        offset_of!(ReceivedTold, received),
        offset_of!(ReceivedTold, count),
        offset_of!(ReceivedTold, extra),
    ];
    let first = 3 * word;
    assert_eq!(fields, [0, word, first, first + 4, first + 8, first + 10]);
    let end = (first + 11).next_multiple_of(word);
    assert_eq!(size_of::<ReceivedTold>(), end);
}

#[test]
fn structs_of_datagrams() {
    let word = size_of::<usize>();
    let fields = [
        offset_of!(RtpFields, timestamp),
        offset_of!(RtpFields, ssrc),
        offset_of!(RtpFields, sequence),
        offset_of!(RtpFields, profile),
        offset_of!(RtpFields, payload_type),
        offset_of!(RtpFields, marker),
        offset_of!(RtpFields, has_extension),
        size_of::<RtpFields>(),
    ];
    assert_eq!(fields, [0, 4, 8, 10, 12, 13, 14, 16]);
    let places = [
        offset_of!(RtpPlaces, header),
        offset_of!(RtpPlaces, csrcs_len),
        offset_of!(RtpPlaces, extension_len),
        offset_of!(RtpPlaces, payload),
        offset_of!(RtpPlaces, payload_len),
        offset_of!(RtpPlaces, padding_len),
        size_of::<RtpPlaces>(),
    ];
    assert_eq!(
        places,
        [
            0,
            16,
            16 + word,
            16 + 2 * word,
            16 + 3 * word,
            16 + 4 * word,
            16 + 5 * word
        ]
    );
    let element = [
        offset_of!(ElementPlace, begin),
        offset_of!(ElementPlace, len),
        offset_of!(ElementPlace, id),
        size_of::<ElementPlace>(),
    ];
    assert_eq!(element, [0, word, 2 * word, 3 * word]);
    let block = [
        offset_of!(BlockPlace, begin),
        offset_of!(BlockPlace, len),
        offset_of!(BlockPlace, timestamp_offset),
        offset_of!(BlockPlace, payload_type),
        size_of::<BlockPlace>(),
    ];
    assert_eq!(block, [0, word, 2 * word, 2 * word + 2, 3 * word]);
    let report = [
        offset_of!(Report, ssrc),
        offset_of!(Report, lost),
        offset_of!(Report, highest),
        offset_of!(Report, jitter),
        offset_of!(Report, last_sender_report),
        offset_of!(Report, delay),
        offset_of!(Report, fraction_lost),
        size_of::<Report>(),
    ];
    assert_eq!(report, [0, 4, 8, 12, 16, 20, 24, 28]);
    let statistics = [
        offset_of!(Statistics, expected),
        offset_of!(Statistics, received_before),
        offset_of!(Statistics, transit),
        offset_of!(Statistics, base),
        offset_of!(Statistics, highest),
        offset_of!(Statistics, after_jump),
        offset_of!(Statistics, has_transit),
        offset_of!(Statistics, has_jumped),
    ];
    assert_eq!(statistics, [0, 48, 56, 60, 62, 64, 66, 67]);
    let long = align_of::<u64>();
    assert_eq!(size_of::<Statistics>(), 68usize.next_multiple_of(long));
}

/// NULL is a buffer of length 0, whatever length is said, an output that isn't wanted, and nothing to be freed.
#[test]
fn nothing_where_nothing_is_given() {
    let mut p: *mut () = null_mut();
    let handle: *mut Handle = (&raw mut p).cast();
    let unit = [0x65, 1, 2, 3];
    // SAFETY: what isn't NULL is there.
    unsafe {
        assert_eq!(h26x_packetizer_new(264, false, (&raw mut p).cast()), 0);
        assert_eq!(
            h26x_packetize(handle, 1200, null_mut(), usize::MAX, null_mut()),
            0
        );
        assert_eq!(h26x_packet_count(handle.cast_const().cast()), 0);
        assert_eq!(
            h26x_packetize(handle, 1200, unit.as_ptr(), unit.len(), null_mut()),
            0
        );
        assert_eq!(
            h26x_packet_copy(handle.cast_const().cast(), 0, null_mut(), usize::MAX),
            4
        );
        assert_eq!(
            h26x_packets_copy(handle.cast_const().cast(), 0, null_mut(), 9, null_mut(), 9),
            0
        );
        h26x_packetizer_free(handle.read());
        handle.cast::<*mut ()>().write(null_mut());
        h26x_packetizer_free(handle.read());
    }
}
