//! Lines of SDP as text: `bindings/streams/sdp.txt`, which says how it is written, and which C, Go and Python walk too.

use crate::sdp::{
    AgreedSets, AgreedStream, AnswerConfig, AnswerRules, BrokenRule, CodecParameters, Direction,
    Fault, H264Parameter, H264Parameters, H265Parameter, H266Parameter, LevelSetsError, Parameter,
    ParametersError, RepairMap, RtpMapError, RtxError, RtxFormat, SetError, UnitsError,
};
use std::fmt::Display;

const TEXT: &str = include_str!(concat!(
    env!("CARGO_MANIFEST_DIR"),
    "/../../bindings/streams/sdp.txt"
));

/// A fault as the text has it.
fn words_of_fault(fault: Fault) -> &'static str {
    match fault {
        Fault::NotANumber => "! no number",
        Fault::OutOfRange => "! out of range",
        Fault::NotHexadecimal => "! not hexadecimal",
        Fault::NotTxMode => "! no mode",
        Fault::Twice => "! twice",
    }
}

/// What is written of a format where a parameter is set, or dropped where there is no value; or why it isn't, and then it
/// stays.
fn changed<P: Parameter>(line: &str, name: &str, value: Option<&str>) -> String {
    let mut it: CodecParameters<P> = line.parse().expect(line);
    let before = it.clone();
    let Some(parameter) = P::of_name(name) else {
        return "! unknown name".into();
    };
    let changed = match value {
        Some(value) => it.set(parameter, value),
        None => it.remove(parameter),
    };
    assert!(changed.is_ok() || it == before, "{line}");
    match changed {
        Ok(()) => it.to_string(),
        Err(SetError::Fault(fault)) => words_of_fault(fault).into(),
        Err(SetError::NotAValue) => "! no value".into(),
        Err(SetError::OutOfMemory) => panic!("memory"),
    }
}

/// The same of a codec's format.
fn changed_of(codec: &str, line: &str, name: &str, value: Option<&str>) -> String {
    match codec {
        "h264" => changed::<H264Parameter>(line, name, value),
        "h265" => changed::<H265Parameter>(line, name, value),
        "h266" => changed::<H266Parameter>(line, name, value),
        _ => panic!("{codec}"),
    }
}

/// The rule that a format of one's own breaks.
fn broken<P: Parameter + Display>(line: &str, config: AnswerConfig) -> String {
    let own: CodecParameters<P> = line.parse().expect(line);
    match own.broken_rule_with(config) {
        None => "-".into(),
        Some(BrokenRule::Profile) => "profile".into(),
        Some(BrokenRule::Level) => "level".into(),
        Some(BrokenRule::HighestLevel) => "highest level".into(),
        Some(BrokenRule::BelowLevel(it)) => format!("below level ({it})"),
        Some(BrokenRule::Reordering) => "reordering".into(),
        Some(BrokenRule::OutOfOrder) => "out of order".into(),
        Some(BrokenRule::AboveLevel(it)) => format!("above level ({it})"),
        Some(BrokenRule::AspectRatios) => "aspect ratios".into(),
        Some(BrokenRule::InBandSets) => "sets in band".into(),
        Some(BrokenRule::HashTypes) => "hash types".into(),
    }
}

/// The same of a codec's format, by each configuration that the text has.
fn broken_of(codec: &str, line: &str) -> [String; 3] {
    let any_order = AnswerConfig {
        any_order: true,
        ..AnswerConfig::default()
    };
    let webrtc = AnswerConfig {
        rules: AnswerRules::Webrtc,
        ..AnswerConfig::default()
    };
    [AnswerConfig::default(), any_order, webrtc].map(|config| match codec {
        "h264" => broken::<H264Parameter>(line, config),
        "h265" => broken::<H265Parameter>(line, config),
        "h266" => broken::<H266Parameter>(line, config),
        _ => panic!("{codec}"),
    })
}

/// The answers to an offer both ways, one way each, and by multicast.
fn ways<P: Parameter + Display>(offer: &str, own: &str) -> String {
    let offered: CodecParameters<P> = offer.parse().expect(offer);
    let ours = [own.parse().expect(own)];
    let configs = [
        AnswerConfig::default(),
        AnswerConfig {
            direction: Direction::SendOnly,
            ..AnswerConfig::default()
        },
        AnswerConfig {
            direction: Direction::RecvOnly,
            ..AnswerConfig::default()
        },
        AnswerConfig {
            multicast: true,
            ..AnswerConfig::default()
        },
    ];
    let answers = configs.map(|config| {
        let answer = offered.answer_with(config, &ours).expect("memory");
        answer.map_or("-".into(), |it| it.to_string())
    });
    answers.join("|")
}

/// The same of a codec's formats.
fn ways_of(codec: &str, offer: &str, own: &str) -> String {
    match codec {
        "h264" => ways::<H264Parameter>(offer, own),
        "h265" => ways::<H265Parameter>(offer, own),
        "h266" => ways::<H266Parameter>(offer, own),
        _ => panic!("{codec}"),
    }
}

/// How an end answers, in words.
fn config_of(how: &str) -> AnswerConfig {
    let has = |word| how.split(' ').any(|it| it == word);
    AnswerConfig {
        any_order: has("any-order"),
        rules: if has("webrtc") {
            AnswerRules::Webrtc
        } else {
            AnswerRules::Rfc
        },
        direction: match how.split(' ').next() {
            Some("both") => Direction::SendRecv,
            Some("sends") => Direction::SendOnly,
            Some("receives") => Direction::RecvOnly,
            _ => panic!("{how}"),
        },
        multicast: has("multicast"),
    }
}

/// A stream as the text has it.
fn words_of_stream(stream: Option<AgreedStream>) -> String {
    let Some(AgreedStream { level, mode, sets }) = stream else {
        return "-".into();
    };
    let mode = mode.map_or(String::from("-"), |it| it.to_string());
    let sets = match sets {
        AgreedSets::InBand => "in-band",
        AgreedSets::Told => "told",
        AgreedSets::ToldOfLevel => "told-of-level",
    };
    format!("{level} {mode} {sets}")
}

/// What our end sends and receives, which is what the other receives and sends.
fn agreed<P: Parameter>(config: AnswerConfig, own: &str, other: &str) -> String {
    let (own, other): (CodecParameters<P>, CodecParameters<P>) =
        (own.parse().expect(own), other.parse().expect(other));
    let ours = own.agreed_with(config, &other);
    let opposite = AnswerConfig {
        direction: config.direction.opposite(),
        ..config
    };
    let theirs = other.agreed_with(opposite, &own);
    assert_eq!((ours.sends, ours.receives), (theirs.receives, theirs.sends));
    format!(
        "{}|{}",
        words_of_stream(ours.sends),
        words_of_stream(ours.receives)
    )
}

/// The same of a codec's formats.
fn agreed_of(codec: &str, config: AnswerConfig, own: &str, other: &str) -> String {
    match codec {
        "h264" => agreed::<H264Parameter>(config, own, other),
        "h265" => agreed::<H265Parameter>(config, own, other),
        "h266" => agreed::<H266Parameter>(config, own, other),
        _ => panic!("{codec}"),
    }
}

/// Whether ours receives what is declared.
fn is_accepted<P: Parameter>(config: AnswerConfig, declared: &str, own: &str) -> &'static str {
    let format: CodecParameters<P> = declared.parse().expect(declared);
    match format.is_accepted_with(config, &[own.parse().expect(own)]) {
        true => "yes",
        false => "no",
    }
}

/// The same of a codec's formats.
fn accepted_of(codec: &str, config: AnswerConfig, declared: &str, own: &str) -> String {
    match codec {
        "h264" => is_accepted::<H264Parameter>(config, declared, own).into(),
        "h265" => is_accepted::<H265Parameter>(config, declared, own).into(),
        "h266" => is_accepted::<H266Parameter>(config, declared, own).into(),
        _ => panic!("{codec}"),
    }
}

/// Whether the sets of a level are those that `sprop-parameter-sets` says: what the text has of them, or why there are
/// none.
fn level_of(codec: &str, line: &str, level: &str, wanted: &str) -> String {
    if codec != "h264" {
        return "! codec".into();
    }
    let format: H264Parameters = line.parse().expect(line);
    match format.sets_of_level(level.parse().expect(level)) {
        Ok(None) => "-".into(),
        Ok(Some(sets)) => {
            let plain = format!("sprop-parameter-sets={wanted}");
            let plain: H264Parameters = plain.parse().expect(wanted);
            assert_eq!(Ok(sets), plain.sprop_parameter_sets(), "{wanted}");
            wanted.into()
        }
        Err(LevelSetsError::NotHexadecimal { place }) => format!("! not hexadecimal {place}"),
        Err(LevelSetsError::NoSets { place }) => format!("! no sets {place}"),
        Err(LevelSetsError::Sets { place, fault }) => match fault {
            UnitsError::NotBase64 { .. } => format!("! no base64 {place}"),
            UnitsError::Empty { .. } => format!("! empty unit {place}"),
            UnitsError::OtherType { .. } => format!("! other type {place}"),
            UnitsError::StartCode { .. } => format!("! start code {place}"),
            error => panic!("{error}"),
        },
        Err(error) => panic!("{error}"),
    }
}

/// What is written of a payload type of what goes beside video, or why it is none.
fn map_of(line: &str) -> String {
    match line.parse::<RepairMap>() {
        Ok(map) => {
            assert_eq!(RepairMap::new(map.payload_type(), map.format()), Some(map));
            map.to_string()
        }
        Err(RtpMapError::PayloadType) => "! payload type".into(),
        Err(RtpMapError::Encoding) => "! encoding name".into(),
        Err(RtpMapError::ClockRate) => "! clock rate".into(),
    }
}

/// The parts of a format of retransmission and what is written of it, or why it is none.
fn rtx_of(line: &str) -> String {
    match line.parse::<RtxFormat>() {
        Ok(it) => {
            let (payload_type, time) = (it.payload_type(), it.rtx_time());
            assert_eq!(RtxFormat::new(payload_type, time), Some(it));
            let time = time.map_or(String::from("-"), |it| it.to_string());
            format!("{payload_type}|{time}|{it}")
        }
        Err(RtxError::NoPayloadType) => "! no apt".into(),
        Err(RtxError::Parameters(ParametersError::Refused { fault, .. })) => {
            words_of_fault(fault).into()
        }
        Err(error) => panic!("{error}"),
    }
}

#[test]
fn rows_of_the_text() {
    let rows = TEXT.lines().filter(|row| !row.starts_with('#'));
    let mut count = 0;
    for row in rows {
        let columns: Vec<&str> = row.split('|').map(str::trim).collect();
        let (got, wanted) = match columns[..] {
            ["set", codec, line, name, value, wanted] => {
                (changed_of(codec, line, name, Some(value)), wanted.into())
            }
            ["drop", codec, line, name, wanted] => {
                (changed_of(codec, line, name, None), wanted.into())
            }
            ["rule", codec, line, wanted] => {
                (broken_of(codec, line).join("|"), [wanted; 3].join("|"))
            }
            ["rule", codec, line, wanted, any_order, webrtc] => {
                let wanted = [wanted, any_order, webrtc];
                (broken_of(codec, line).join("|"), wanted.join("|"))
            }
            ["ways", codec, offer, own, ref wanted @ ..] => {
                (ways_of(codec, offer, own), wanted.join("|"))
            }
            ["agree", codec, how, own, other, sends, receives] => {
                let got = agreed_of(codec, config_of(how), own, other);
                (got, format!("{sends}|{receives}"))
            }
            ["declared", codec, how, declared, own, wanted] => {
                let got = accepted_of(codec, config_of(how), declared, own);
                (got, wanted.into())
            }
            ["level", codec, line, level, wanted] => {
                (level_of(codec, line, level, wanted), wanted.into())
            }
            ["map", line, wanted] => (map_of(line), wanted.into()),
            ["rtx", line, ref wanted @ ..] => (rtx_of(line), wanted.join("|")),
            _ => panic!("{row}"),
        };
        assert_eq!(got, wanted, "{row}");
        count += 1;
    }
    assert!(count > 130, "{count} rows");
}
