//! Offers and answers as text: `bindings/streams/answers.txt`, which says how it is written, and which C, Go and Python
//! walk too.

use crate::sdp::{
    AnswerConfig, AnswerRules, BrokenRule, CodecParameters, H264Parameter, H265Parameter,
    H266Parameter, Parameter,
};

const TEXT: &str = include_str!(concat!(
    env!("CARGO_MANIFEST_DIR"),
    "/../../bindings/streams/answers.txt"
));

/// The answer to an offer by one of ours, that of an end that takes units in any order, and that as WebRTC's peers do it,
/// as the text has them.
fn answered<P: Parameter>(offer: &str, ours: &str) -> [String; 3] {
    let offered: CodecParameters<P> = offer.parse().expect(offer);
    let ours = [ours.parse().expect(ours)];
    let webrtc = AnswerConfig {
        rules: AnswerRules::Webrtc,
        ..AnswerConfig::default()
    };
    let answers = [
        offered.answer(&ours),
        offered.answer_any_order(&ours),
        offered.answer_with(webrtc, &ours),
    ];
    answers.map(|answer| match answer.expect("memory") {
        Some(answer) => answer.to_string(),
        None => "-".into(),
    })
}

/// What a peer answers, written as ours is.
fn written<P: Parameter>(answer: &str) -> String {
    match answer {
        "-" => "-".into(),
        it => it.parse::<CodecParameters<P>>().expect(it).to_string(),
    }
}

/// What is written of a peer's answer.
fn written_of(codec: &str, answer: &str) -> String {
    match codec {
        "h264" => written::<H264Parameter>(answer),
        "h265" => written::<H265Parameter>(answer),
        "h266" => written::<H266Parameter>(answer),
        _ => panic!("{codec}"),
    }
}

#[test]
fn answers_of_the_text() {
    let rows = TEXT.lines().filter(|row| !row.starts_with('#'));
    let mut count = 0;
    for row in rows {
        let columns: Vec<&str> = row.split('|').map(str::trim).collect();
        let [codec, offer, ours, wanted, ..] = columns[..] else {
            panic!("{row}");
        };
        let any_order = columns.get(4).copied().unwrap_or(wanted);
        let webrtc = columns.get(5).copied().unwrap_or(wanted);
        let answers = match codec {
            "h264" => answered::<H264Parameter>(offer, ours),
            "h265" => answered::<H265Parameter>(offer, ours),
            "h266" => answered::<H266Parameter>(offer, ours),
            _ => panic!("{row}"),
        };
        assert_eq!(answers, [wanted, any_order, webrtc], "{row}");
        if let Some(peers) = columns.get(7) {
            let is_one = written_of(codec, peers) == webrtc;
            assert_ne!(is_one, columns.len() > 8, "{row}");
        }
        count += 1;
    }
    assert!(count > 40, "{count} rows");
}

/// The rule that a format of one's own breaks.
#[track_caller]
fn breaks<P: Parameter>(line: &str, wanted: Option<BrokenRule<P>>) {
    let own: CodecParameters<P> = line.parse().expect(line);
    assert_eq!(own.broken_rule(), wanted, "{line}");
}

/// By RFC 6184, 8.1, and table A-1 of H.264; RFC 7798, 7.1, and tables A.8 and A.9 of H.265; RFC 9328, 7.2.
#[test]
fn levels_of_h264_that_are_broken() {
    use BrokenRule::{BelowLevel, HighestLevel, Level};
    breaks::<H264Parameter>("", None);
    breaks(
        "profile-level-id=42e007",
        Some::<BrokenRule<H264Parameter>>(Level),
    );
    breaks::<H264Parameter>(
        "profile-level-id=42e01f;max-recv-level=e01f",
        Some(HighestLevel),
    );
    breaks::<H264Parameter>(
        "profile-level-id=42e01f;max-recv-level=e021",
        Some(HighestLevel),
    );
    breaks(
        "profile-level-id=42e01f;max-fs=3599",
        Some(BelowLevel(H264Parameter::MaxFs)),
    );
    breaks(
        "profile-level-id=42e01f;max-mbps=107999",
        Some(BelowLevel(H264Parameter::MaxMbps)),
    );
    breaks(
        "profile-level-id=42e01f;max-smbps=107999",
        Some(BelowLevel(H264Parameter::MaxSmbps)),
    );
    breaks(
        "profile-level-id=42e01f;max-cpb=13999",
        Some(BelowLevel(H264Parameter::MaxCpb)),
    );
    breaks(
        "profile-level-id=42e01f;max-dpb=6749",
        Some(BelowLevel(H264Parameter::MaxDpb)),
    );
    breaks(
        "profile-level-id=42e01f;max-br=13999",
        Some(BelowLevel(H264Parameter::MaxBr)),
    );
    breaks::<H264Parameter>(
        "profile-level-id=42e01f;max-mbps=108000;max-smbps=108000;max-fs=3600;max-cpb=14000;max-dpb=6750;max-br=14000",
        None,
    );
}

#[test]
fn rules_of_h264_that_are_broken() {
    use BrokenRule::{AspectRatios, InBandSets, OutOfOrder, Profile, Reordering};
    breaks::<H264Parameter>("packetization-mode=2", Some(Reordering));
    breaks::<H264Parameter>(
        "packetization-mode=2;sprop-interleaving-depth=1",
        Some(Reordering),
    );
    breaks::<H264Parameter>(
        "packetization-mode=2;sprop-interleaving-depth=1;sprop-deint-buf-req=1",
        Some(OutOfOrder),
    );
    breaks::<H264Parameter>(
        "packetization-mode=1;sprop-init-buf-time=0",
        Some(Reordering),
    );
    breaks::<H264Parameter>("profile-level-id=43e01f", Some(Profile));
    breaks::<H264Parameter>("sar-supported=14", Some(AspectRatios));
    breaks::<H264Parameter>("sar-understood=16;sar-supported=17", Some(AspectRatios));
    breaks::<H264Parameter>("sar-understood=16;sar-supported=16", None);
    breaks::<H264Parameter>("sar-supported=255", None);
    breaks::<H264Parameter>(
        "in-band-parameter-sets=1;use-level-src-parameter-sets=1",
        Some(InBandSets),
    );
    breaks::<H264Parameter>("in-band-parameter-sets=1", None);
    breaks::<H264Parameter>("use-level-src-parameter-sets=1", None);
}

#[test]
fn rules_of_h265_that_are_broken() {
    use BrokenRule::{AboveLevel, BelowLevel, HashTypes, HighestLevel, Level, Profile, Reordering};
    breaks::<H265Parameter>("", None);
    breaks::<H265Parameter>("profile-id=31", Some(Profile));
    breaks::<H265Parameter>("profile-space=1", Some(Profile));
    breaks::<H265Parameter>("level-id=7", Some(Level));
    breaks::<H265Parameter>("max-recv-level-id=93", Some(HighestLevel));
    breaks::<H265Parameter>("max-recv-level-id=94", Some(HighestLevel));
    breaks("max-lps=983039", Some(BelowLevel(H265Parameter::MaxLps)));
    breaks("max-tr=2", Some(BelowLevel(H265Parameter::MaxTr)));
    breaks("max-tc=2", Some(BelowLevel(H265Parameter::MaxTc)));
    breaks("max-cpb=9999", Some(BelowLevel(H265Parameter::MaxCpb)));
    breaks(
        "max-recv-level-id=120;max-cpb=11999",
        Some(BelowLevel(H265Parameter::MaxCpb)),
    );
    breaks(
        "level-id=120;tier-flag=1;max-cpb=29999",
        Some(BelowLevel(H265Parameter::MaxCpb)),
    );
    breaks::<H265Parameter>(
        "sprop-max-don-diff=1;sprop-depack-buf-bytes=1",
        Some(Reordering),
    );
    for (parameter, most) in [
        (H265Parameter::MaxLsr, 16 * 33177600_u64),
        (H265Parameter::MaxLps, 16 * 983040),
        (H265Parameter::MaxCpb, 16 * 10000),
        (H265Parameter::MaxBr, 16 * 10000),
        (H265Parameter::MaxTr, 16 * 3),
        (H265Parameter::MaxTc, 16 * 3),
    ] {
        breaks::<H265Parameter>(&format!("{parameter}={most}"), None);
        let above = format!("{parameter}={}", most + 1);
        breaks(&above, Some(AboveLevel(parameter)));
    }
    breaks::<H265Parameter>("max-dpb=16", None);
    breaks::<H265Parameter>("include-dph=0,2", None);
    breaks::<H265Parameter>("include-dph=", None);
    breaks::<H265Parameter>("include-dph=0,256", Some(HashTypes));
    breaks::<H265Parameter>("include-dph=0,,2", Some(HashTypes));
}

#[test]
fn rules_of_h266_that_are_broken() {
    use BrokenRule::{
        AboveLevel, BelowLevel, HighestLevel, Level, OutOfOrder, Profile, Reordering,
    };
    breaks::<H266Parameter>("", None);
    breaks("max-lsr=33177599", Some(BelowLevel(H266Parameter::MaxLsr)));
    breaks::<H266Parameter>("max-lsr=530841600", None);
    breaks("max-lsr=530841601", Some(AboveLevel(H266Parameter::MaxLsr)));
    breaks(
        "max-recv-level-id=64;max-lsr=33177600",
        Some(BelowLevel(H266Parameter::MaxLsr)),
    );
    breaks::<H266Parameter>("level-id=255;max-lsr=1", None);
    breaks::<H266Parameter>("profile-id=2", Some(Profile));
    breaks::<H266Parameter>("level-id=52", Some(Level));
    breaks::<H266Parameter>("max-recv-level-id=51", Some(HighestLevel));
    breaks::<H266Parameter>("sprop-max-don-diff=1", Some(Reordering));
    breaks::<H266Parameter>(
        "sprop-max-don-diff=1;sprop-depack-buf-bytes=1",
        Some(OutOfOrder),
    );
}
