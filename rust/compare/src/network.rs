//! Packets as a network brings them, to receivers of access units of both sides; and parameters of SDP.

#[cfg(feature = "library")]
use crate::c;
#[cfg(feature = "library")]
use crate::log::number;
use crate::log::{Log, code, told};
use crate::making::Making;
use crate::runs::beside;
use emupedestal::access_unit_receiver::{AccessUnitConfig, AccessUnitReceiver, Pushed};
use emupedestal::sdp::{
    AnswerConfig, AnswerRules, CodecParameters, H264Parameters, H265Parameters, H266Parameters,
    Parameter, ParametersError, SetError,
};
use emupedestal::{Codec, PacketError, RtpPacket};

/// The code, what became of a packet, and how far it is behind, as `h26x.h` has them.
fn pushed(it: Result<Pushed, PacketError>) -> (u32, u32, u16) {
    match it {
        Ok(Pushed::Held) => (0, 0, 0),
        Ok(Pushed::Late(behind)) => (0, 1, behind),
        Ok(Pushed::Twice) => (0, 2, 0),
        Ok(Pushed::Full) => (0, 3, 0),
        Ok(Pushed::Stray) => (0, 4, 0),
        Ok(Pushed::Anew) => (0, 5, 0),
        Ok(Pushed::Jumped) => (0, 6, 0),
        Err(error) => (code(error).0, 0, 0),
    }
}

/// Packets of pictures of each codec: parameter sets and a keyframe, a keyframe alone, another picture, one that nothing
/// refers to, and one behind a delimiter.
const PICTURES: [[&[u8]; 5]; 3] = [
    [
        &[
            0x78, 0, 4, 0x67, 0x42, 0xc0, 0x1f, 0, 2, 0x68, 0xce, 0, 2, 0x65, 0x88,
        ],
        &[0x65, 0x88],
        &[0x41, 0x9a],
        &[0x01, 0x9a],
        &[0x78, 0, 2, 0x09, 0xf0, 0, 2, 0x41, 0x9a],
    ],
    [
        &[
            0x60, 1, 0, 3, 0x40, 1, 0x0c, 0, 3, 0x42, 1, 1, 0, 3, 0x44, 1, 0xc1, 0, 3, 0x26, 1,
            0xac,
        ],
        &[0x26, 1, 0xac],
        &[0x02, 1, 0xd0],
        &[0x00, 1, 0xd0],
        &[0x60, 1, 0, 3, 0x46, 1, 0x50, 0, 3, 0x02, 1, 0xd0],
    ],
    [
        &[
            0, 0xe1, 0, 3, 0, 0x79, 0, 0, 3, 0, 0x81, 0, 0, 3, 0, 0x41, 0xc0,
        ],
        &[0, 0x41, 0xc0],
        &[0, 0x01, 0xc0],
        &[0, 0x01, 0xe0],
        &[0, 0xe1, 0, 3, 0, 0xa1, 0x28, 0, 3, 0, 0x01, 0xc0],
    ],
];

fn drawn_config(m: &mut Making) -> AccessUnitConfig {
    AccessUnitConfig {
        window: m.random.of(&[1, 2, 3, 8, 64]),
        far: m.random.of(&[0, 1, 30, 3000]),
        far_behind: m.random.of(&[0, 1, 20, 100]),
        max_wait: m.random.of(&[0, 10, 50, u32::MAX]),
        begin_wait: m.random.of(&[0, 0, 10, 60, u32::MAX]),
        held_limit: m.random.of(&[20, 200, usize::MAX]),
        run_limit: m.random.of(&[3, 20, usize::MAX]),
        unit_limit: m.random.of(&[0, 12, 40, usize::MAX]),
        has_sets: m.random.one_in(3),
    }
}

/// The same settings for the other side.
#[cfg(feature = "library")]
fn c_settings(codec: Codec, has_donl: bool, avc: bool, config: AccessUnitConfig) -> header::Config {
    header::Config {
        codec: number(codec),
        max_wait: config.max_wait,
        begin_wait: config.begin_wait,
        window: config.window,
        far_away: config.far,
        far_behind: config.far_behind,
        numbers: has_donl,
        avc,
        has_sets: config.has_sets,
        held_limit: config.held_limit,
        run_limit: config.run_limit,
        unit_limit: config.unit_limit,
    }
}

fn drawn_payload(m: &mut Making) -> Vec<u8> {
    match m.random.below(3) {
        0 => m.random.of(&PICTURES[m.codec]).to_vec(),
        _ => m.packet(),
    }
}

/// Access units that have ended, some of which are given back.
fn say_units(
    receiver: &mut AccessUnitReceiver,
    now: u32,
    codec: Codec,
    m: &mut Making,
    ours: &mut Log,
) {
    while let Some(unit) = receiver.next(now).expect("memory") {
        let is = (
            unit.is_whole,
            unit.is_clean,
            unit.is_disposable,
            unit.continues,
            told(codec, unit.extra),
        );
        ours.say(
            "unit",
            (
                unit.timestamp,
                unit.missing,
                unit.first,
                unit.last,
                is,
                &unit.bytes,
            ),
        );
        if m.random.one_in(2) {
            receiver.give_back(unit);
        }
    }
}

/// What is waited for, and what was counted.
fn say_counts(receiver: &AccessUnitReceiver, ours: &mut Log) {
    ours.say(
        "waits",
        (receiver.deadline(), receiver.missing().expect("memory")),
    );
    let it = receiver.counts();
    let gone = [
        it.taken, it.lost, it.late, it.twice, it.stray, it.refused, it.skipped, it.anew,
    ];
    let given_up = [it.units_given_up, it.texts_given_up];
    let framing = [it.no_unit, it.still, it.unbelieved];
    ours.say("counts", (gone, it.units, it.whole, given_up, framing));
}

/// All of this of the other side.
#[cfg(feature = "library")]
fn say_other(c_receiver: &mut c::End, now: u32, theirs: &mut Log) {
    while let Some((unit, bytes)) = c_receiver.next_unit(now) {
        let is = (
            unit.is_whole,
            unit.is_clean,
            unit.is_disposable,
            unit.continues,
            unit.extra,
        );
        theirs.say(
            "unit",
            (
                unit.timestamp,
                unit.missing,
                unit.first,
                unit.last,
                is,
                bytes,
            ),
        );
    }
    theirs.say("waits", (c_receiver.deadline(), c_receiver.missing()));
    let [
        gone @ ..,
        units,
        whole,
        of_units,
        of_texts,
        no_unit,
        still,
        unbelieved,
    ] = c_receiver.counts();
    let framing = [no_unit, still, unbelieved];
    theirs.say(
        "counts",
        (gone, units, whole, [of_units, of_texts], framing),
    );
}

pub fn access_units(seed: u64, case: u64, ours: &mut Log, theirs: &mut Log) {
    let mut m = Making::new(seed ^ 0x51ab77, case);
    let codec = [Codec::H264, Codec::H265, Codec::H266][m.codec];
    let config = drawn_config(&mut m);
    let avc = m.random.one_in(3);
    let mut receiver = AccessUnitReceiver::with_settings(codec, m.has_donl, avc, config);
    #[cfg(feature = "library")]
    let mut c_receiver = c::access_units(&c_settings(codec, m.has_donl, avc, config));
    let (mut sequence, mut timestamp, mut now) =
        (m.random.word() as u16, m.random.word(), m.random.word());
    for _ in 0..m.random.between(4, 60) {
        sequence = m.next_number(sequence);
        now = now.wrapping_add(m.random.of(&[0, 0, 1, 7, 30]));
        let payload = drawn_payload(&mut m);
        let marker = m.random.one_in(4);
        if m.random.one_in(16) {
            ours.say("skip", pushed(receiver.skip(now, sequence)));
            beside! { theirs.say("skip", c_receiver.skip_unit_packet(now, sequence)); }
        } else {
            let packet = RtpPacket {
                sequence,
                timestamp,
                marker,
                payload: &payload,
            };
            ours.say("push", pushed(receiver.push(now, &packet)));
            beside! { theirs.say("push", c_receiver.push(now, (sequence, timestamp, marker, &payload))); }
        }
        if marker && !m.random.one_in(6) || m.random.one_in(12) {
            timestamp = timestamp.wrapping_add(3000);
        }
        if m.random.one_in(20) {
            ours.say("begins", receiver.begin_at(sequence.wrapping_add(1)));
            beside! { theirs.say("begins", c_receiver.begin_at(sequence.wrapping_add(1))); }
        }
        match m.random.below(60) {
            0 => {
                receiver.finish();
                beside! { c_receiver.finish(); }
            }
            1 => {
                receiver.restart();
                beside! { c_receiver.restart_units(); }
            }
            2..5 => {
                let first = sequence.wrapping_add(1);
                ours.say("begins", receiver.begin_at(first));
                beside! { theirs.say("begins", c_receiver.begin_at(first)); }
            }
            _ => {}
        }
        if m.random.one_in(3) {
            continue;
        }
        say_units(&mut receiver, now, codec, &mut m, ours);
        say_counts(&receiver, ours);
        beside! { say_other(&mut c_receiver, now, theirs); }
    }
    let _ = theirs;
}

/// The code of a refusal and the place of the parameter.
pub fn refusal(error: ParametersError) -> (u32, usize) {
    use emupedestal::sdp::Fault;
    match error {
        ParametersError::OpenBrace => (20, 0),
        ParametersError::OutOfMemory => (8, 0),
        ParametersError::Refused { place, fault } => match fault {
            Fault::NotANumber => (21, place),
            Fault::OutOfRange => (22, place),
            Fault::NotHexadecimal => (23, place),
            Fault::NotTxMode => (24, place),
            Fault::Twice => (25, place),
            _ => (u32::MAX, place),
        },
        _ => (u32::MAX, 0),
    }
}

/// Names and values, drawn as a format is.
fn settings(text: &str) -> impl Iterator<Item = (&str, &str)> {
    text.split(';').filter_map(|part| part.split_once('='))
}

/// The code of what gives a parameter a value, or takes it away where there is none.
fn changed<P: Parameter>(it: &mut CodecParameters<P>, name: &str, value: Option<&str>) -> u32 {
    let Some(parameter) = P::of_name(name) else {
        return 26;
    };
    let changed = match value {
        Some(value) => it.set(parameter, value),
        None => it.remove(parameter),
    };
    match changed {
        Ok(()) => 0,
        Err(SetError::Fault(fault)) => refusal(ParametersError::Refused { place: 0, fault }).0,
        Err(SetError::NotAValue) => 49,
        _ => u32::MAX,
    }
}

/// A format of which the settings of another text are set, and dropped again.
fn changes<P: Parameter>(codec: Codec, texts: &[String; 2], ours: &mut Log, theirs: &mut Log) {
    if let Ok(mut it) = texts[0].parse::<CodecParameters<P>>() {
        for (name, value) in settings(&texts[1]) {
            let code = changed(&mut it, name, Some(value));
            ours.say("set", format!("{code} {it}"));
        }
        for (name, _) in settings(&texts[1]) {
            let code = changed(&mut it, name, None);
            ours.say("unset", format!("{code} {it}"));
        }
    }
    beside! {
        if let Ok(mut it) = c::sdp(number(codec), texts[0].as_bytes()) {
            for (name, value) in settings(&texts[1]) {
                let code = it.set(name, value);
                theirs.say("set", format!("{code} {}", it.text()));
            }
            for (name, _) in settings(&texts[1]) {
                let code = it.unset(name);
                theirs.say("unset", format!("{code} {}", it.text()));
            }
        }
    }
    let _ = (codec, theirs);
}

/// Parameters of two formats, written, and the answer of the one to the other.
fn answers<P: Parameter>(codec: Codec, texts: &[String; 2], ours: &mut Log, theirs: &mut Log) {
    let read = texts
        .each_ref()
        .map(|text| text.parse::<CodecParameters<P>>());
    for it in &read {
        ours.say(
            "format",
            it.as_ref()
                .map(ToString::to_string)
                .map_err(|error| refusal(*error)),
        );
    }
    if let [Ok(offered), Ok(own)] = &read {
        let by = std::slice::from_ref(own);
        let webrtc = AnswerConfig {
            rules: AnswerRules::Webrtc,
            ..AnswerConfig::default()
        };
        let answers = [
            offered.answer(by),
            offered.answer_any_order(by),
            offered.answer_with(webrtc, by),
        ];
        for answer in answers {
            ours.say("answer", answer.expect("memory").map(|it| it.to_string()));
        }
    }
    beside! {
        let read = texts.each_ref().map(|text| c::sdp(number(codec), text.as_bytes()));
        for it in &read {
            theirs.say("format", it.as_ref().map(c::End::text).map_err(|it| *it));
        }
        if let [Ok(offered), Ok(own)] = &read {
            for answer in [
                offered.answer(own),
                offered.answer_any_order(own),
                offered.answer_webrtc(own, false),
            ] {
                theirs.say("answer", answer.map(|it| it.text()));
            }
        }
    }
    let _ = (codec, theirs);
}

pub fn formats(seed: u64, case: u64, ours: &mut Log, theirs: &mut Log) {
    let mut m = Making::new(seed ^ 0x2fd31c, case);
    let codec = [Codec::H264, Codec::H265, Codec::H266][m.codec];
    let texts = [m.format(), m.format()];
    let (_, payload) = m.payload();
    match codec {
        Codec::H264 => answers::<emupedestal::sdp::H264Parameter>(codec, &texts, ours, theirs),
        Codec::H265 => answers::<emupedestal::sdp::H265Parameter>(codec, &texts, ours, theirs),
        Codec::H266 => answers::<emupedestal::sdp::H266Parameter>(codec, &texts, ours, theirs),
    }
    match codec {
        Codec::H264 => changes::<emupedestal::sdp::H264Parameter>(codec, &texts, ours, theirs),
        Codec::H265 => changes::<emupedestal::sdp::H265Parameter>(codec, &texts, ours, theirs),
        Codec::H266 => changes::<emupedestal::sdp::H266Parameter>(codec, &texts, ours, theirs),
    }
    let of_payload = match codec {
        Codec::H264 => H264Parameters::of_payload(&payload)
            .ok()
            .map(|it| it.to_string()),
        Codec::H265 => H265Parameters::of_payload(&payload)
            .ok()
            .map(|it| it.to_string()),
        Codec::H266 => H266Parameters::of_payload(&payload)
            .ok()
            .map(|it| it.to_string()),
    };
    ours.say("of a stream", of_payload);
    beside! { theirs.say("of a stream", c::sdp_of_payload(number(codec), &payload).ok().map(|it| it.text())); }
}
