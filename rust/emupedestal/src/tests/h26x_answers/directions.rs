//! Answers in a direction, by the tables of the RFCs (RFC 6184, section 8.2.2, table 6; RFC 7798, section 7.2.2, table
//! 1; RFC 9328, section 7.3.2.3, figure 11).

use crate::sdp::{
    Agreed, AgreedSets, AgreedStream, AnswerConfig, CodecParameters, Direction, H264Parameter,
    H265Parameter, H266Parameter, Parameter,
};

/// The answer by an end that writes a direction, of units in any order or of those in decoding order.
fn answer<P: Parameter>(
    direction: Direction,
    any_order: bool,
    offer: &str,
    own: &str,
) -> Option<String> {
    let config = AnswerConfig {
        direction,
        any_order,
        ..AnswerConfig::default()
    };
    let offered: CodecParameters<P> = offer.parse().expect(offer);
    let ours = [own.parse().expect(own)];
    Some(
        offered
            .answer_with(config, &ours)
            .expect("memory")?
            .to_string(),
    )
}

/// Compares the answers both ways, by who sends alone, and by who receives alone.
#[track_caller]
fn directed<P: Parameter>(any_order: bool, offer: &str, own: &str, wanted: [Option<&str>; 3]) {
    let directions = [
        Direction::SendRecv,
        Direction::SendOnly,
        Direction::RecvOnly,
    ];
    for (direction, wanted) in directions.into_iter().zip(wanted) {
        let is = answer::<P>(direction, any_order, offer, own);
        assert_eq!(is.as_deref(), wanted, "{direction:?} {offer} {own}");
    }
}

#[test]
fn h264_interleaved_one_way_needs_the_receivers_buffer() {
    let own = "profile-level-id=42a01e;packetization-mode=2;sprop-interleaving-depth=60;\
               sprop-deint-buf-req=128000;deint-buf-cap=64000";
    let camera = "profile-level-id=42a01e;packetization-mode=2;sprop-interleaving-depth=45;\
                  sprop-deint-buf-req=64000";
    let receives = "profile-level-id=42a01e;packetization-mode=2;deint-buf-cap=64000";
    // as it offers no buffer, nothing of ours can be sent to it
    directed::<H264Parameter>(true, camera, own, [None, None, Some(receives)]);
    let deeper = camera.replace("64000", "64001");
    directed::<H264Parameter>(true, &deeper, own, [None, None, None]);
    let screen = "profile-level-id=42a01e;packetization-mode=2;deint-buf-cap=128000";
    let sends = "profile-level-id=42a01e;packetization-mode=2;sprop-interleaving-depth=60;\
                 sprop-deint-buf-req=128000";
    // and as it tells no depth, it can send nothing to us
    directed::<H264Parameter>(true, screen, own, [None, Some(sends), None]);
    let smaller = screen.replace("128000", "127999");
    directed::<H264Parameter>(true, &smaller, own, [None, None, None]);
    // and none where the caller takes no other order
    directed::<H264Parameter>(false, camera, own, [None, None, None]);
}

/// What an end agrees on that wrote one line, with one that wrote another.
fn agreed<P: Parameter>(direction: Direction, own: &str, other: &str) -> Agreed {
    let config = AnswerConfig {
        direction,
        ..AnswerConfig::default()
    };
    let own: CodecParameters<P> = own.parse().expect(own);
    own.agreed_with(config, &other.parse().expect(other))
}

fn stream(level: u64, mode: Option<u64>, sets: AgreedSets) -> Option<AgreedStream> {
    Some(AgreedStream { level, mode, sets })
}

#[test]
fn h264_levels_that_are_agreed() {
    use AgreedSets::InBand;
    // RFC 6184, section 8.1: with a level for each direction the highest that the receiver takes
    let low = "profile-level-id=42e00b;level-asymmetry-allowed=1;max-recv-level=e01f;packetization-mode=1";
    let high = "profile-level-id=42e028;level-asymmetry-allowed=1;packetization-mode=1";
    let it = agreed::<H264Parameter>(Direction::SendRecv, low, high);
    assert_eq!(
        [it.sends, it.receives],
        [stream(80, Some(1), InBand), stream(62, Some(1), InBand)]
    );
    // and without it the lower level
    let one = low.replace("allowed=1", "allowed=0");
    let it = agreed::<H264Parameter>(Direction::SendRecv, &one, high);
    assert_eq!([it.sends, it.receives], [stream(22, Some(1), InBand); 2]);
    // one way no level is its own
    let it = agreed::<H264Parameter>(Direction::RecvOnly, low, high);
    assert_eq!([it.sends, it.receives], [None, stream(22, Some(1), InBand)]);
    let it = agreed::<H264Parameter>(Direction::SendOnly, high, low);
    assert_eq!([it.sends, it.receives], [stream(22, Some(1), InBand), None]);
    // level 1b stands between 1 and 1.1
    let it = agreed::<H264Parameter>(
        Direction::SendOnly,
        "profile-level-id=42f00b",
        "profile-level-id=42e01f",
    );
    assert_eq!(it.sends, stream(21, Some(0), InBand));
}

#[test]
fn h264_sets_that_are_agreed() {
    use AgreedSets::{InBand, Told, ToldOfLevel};
    let sets = |sender: &str, receiver: &str| {
        let it = agreed::<H264Parameter>(Direction::RecvOnly, receiver, sender);
        it.receives.expect("a level").sets
    };
    let told = "profile-level-id=42e01f;sprop-parameter-sets=aM4yyA==";
    assert_eq!(sets(told, "profile-level-id=42e01f"), Told);
    let asks = "profile-level-id=42e01f;in-band-parameter-sets=1";
    assert_eq!(sets(told, asks), InBand);
    assert_eq!(
        sets("profile-level-id=42e01f", "profile-level-id=42e01f"),
        InBand
    );
    // at a lower level those of it, where the receiver uses them
    let of_levels = format!("{told};sprop-level-parameter-sets=42E00B:aM4yyA==");
    let uses = "profile-level-id=42e00b;use-level-src-parameter-sets=1";
    assert_eq!(sets(&of_levels, uses), ToldOfLevel);
    assert_eq!(sets(&of_levels, "profile-level-id=42e00b"), InBand);
    assert_eq!(sets(told, uses), InBand);
}

#[test]
fn levels_and_sets_of_h265_and_h266_that_are_agreed() {
    use AgreedSets::{InBand, Told};
    let own = "level-id=93;max-recv-level-id=120;sprop-vps=QAE=;sprop-sps=QgE=;sprop-pps=RAE=";
    let it = agreed::<H265Parameter>(Direction::SendRecv, own, "level-id=63;sprop-sps=QgE=");
    assert_eq!(
        [it.sends, it.receives],
        [stream(63, None, Told), stream(120, None, InBand)]
    );
    let it = agreed::<H266Parameter>(
        Direction::SendOnly,
        "level-id=51;sprop-sps=AHkB;sprop-pps=AIEB",
        "level-id=51",
    );
    assert_eq!([it.sends, it.receives], [stream(51, None, Told), None]);
}

/// Whether one that is declared is received by ours.
fn accepts<P: Parameter>(any_order: bool, declared: &str, own: &str) -> bool {
    let config = AnswerConfig {
        any_order,
        ..AnswerConfig::default()
    };
    let declared: CodecParameters<P> = declared.parse().expect(declared);
    declared.is_accepted_with(config, &[own.parse().expect(own)])
}

#[test]
fn declared_formats() {
    let own = "profile-level-id=42e01f;packetization-mode=1";
    assert!(accepts::<H264Parameter>(false, own, own));
    // a lower level, a higher one, another mode, and another profile
    let line = |id: &str, mode: u8| format!("profile-level-id={id};packetization-mode={mode}");
    assert!(accepts::<H264Parameter>(false, &line("42e00b", 1), own));
    assert!(!accepts::<H264Parameter>(false, &line("42e020", 1), own));
    assert!(!accepts::<H264Parameter>(false, &line("42e01f", 0), own));
    assert!(!accepts::<H264Parameter>(false, &line("4d001f", 1), own));
    // up to the highest level that is received
    let higher = format!("{own};max-recv-level=e020");
    assert!(accepts::<H264Parameter>(false, &line("42e020", 1), &higher));
    assert!(!accepts::<H264Parameter>(
        false,
        &line("42e028", 1),
        &higher
    ));
    // interleaved units in our buffer, by who takes any order; what it could receive doesn't matter
    let declared = "profile-level-id=42e01f;packetization-mode=2;sprop-interleaving-depth=4;\
                    sprop-deint-buf-req=64000";
    let ours = "profile-level-id=42e01f;packetization-mode=2;sprop-interleaving-depth=0;\
                sprop-deint-buf-req=0;deint-buf-cap=64000";
    assert!(accepts::<H264Parameter>(true, declared, ours));
    assert!(!accepts::<H264Parameter>(false, declared, ours));
    let smaller = ours.replace("cap=64000", "cap=63999");
    assert!(!accepts::<H264Parameter>(true, declared, &smaller));

    assert!(accepts::<H265Parameter>(
        false,
        "level-id=120",
        "max-recv-level-id=120"
    ));
    assert!(!accepts::<H265Parameter>(
        false,
        "level-id=123",
        "max-recv-level-id=120"
    ));
    assert!(!accepts::<H265Parameter>(
        false,
        "tier-flag=1",
        "tier-flag=0"
    ));
    assert!(accepts::<H266Parameter>(
        false,
        "profile-id=1;level-id=51",
        "profile-id=1;level-id=83"
    ));
    assert!(!accepts::<H266Parameter>(
        false,
        "profile-id=1;level-id=83",
        "profile-id=1;level-id=51"
    ));
}

/// Compares the answers by unicast and by multicast.
#[track_caller]
fn cast<P: Parameter>(offer: &str, own: &str, wanted: [Option<&str>; 2]) {
    for (multicast, wanted) in [false, true].into_iter().zip(wanted) {
        let config = AnswerConfig {
            multicast,
            ..AnswerConfig::default()
        };
        let offered: CodecParameters<P> = offer.parse().expect(offer);
        let ours = [own.parse().expect(own)];
        let is = offered.answer_with(config, &ours).expect("memory");
        let is = is.map(|it| it.to_string());
        assert_eq!(is.as_deref(), wanted, "{multicast} {offer} {own}");
    }
}

#[test]
fn multicast_keeps_the_offered_level() {
    let level = Some("profile-level-id=42e01f");
    cast::<H264Parameter>(
        "profile-level-id=42e01f",
        "profile-level-id=42e028",
        [level; 2],
    );
    cast::<H264Parameter>(
        "profile-level-id=42e01f",
        "profile-level-id=42e00d",
        [Some("profile-level-id=42e00d"), None],
    );
    cast::<H264Parameter>(
        "profile-level-id=42e01f;level-asymmetry-allowed=1",
        "profile-level-id=42e028;level-asymmetry-allowed=1",
        [
            Some("profile-level-id=42e028;level-asymmetry-allowed=1"),
            level,
        ],
    );
    cast::<H265Parameter>("level-id=93", "level-id=93", [Some("level-id=93"); 2]);
    cast::<H265Parameter>(
        "level-id=93",
        "level-id=90;max-recv-level-id=120",
        [Some("level-id=90;max-recv-level-id=93"), None],
    );
    cast::<H266Parameter>("level-id=67", "level-id=64", [Some("level-id=64"), None]);
}
