//! Offers as ends make them and those of the RFCs, and what is answered.

use crate::sdp::{CodecParameters, Format, H264Parameter, H265Parameter, H266Parameter, Parameter};

/// An offer with its payload types, what we take, and the answer in the order of the table.
struct Exchange {
    offer: &'static [(u8, &'static str)],
    ours: &'static [&'static str],
    answer: Option<(u8, &'static str)>,
}

/// The modes that Chromium offers of Baseline, Constrained Baseline and Main, and High 4:4:4.
const CHROMIUM: [(u8, &str); 7] = [
    (
        102,
        "level-asymmetry-allowed=1;packetization-mode=1;profile-level-id=42001f",
    ),
    (
        104,
        "level-asymmetry-allowed=1;packetization-mode=0;profile-level-id=42001f",
    ),
    (
        106,
        "level-asymmetry-allowed=1;packetization-mode=1;profile-level-id=42e01f",
    ),
    (
        108,
        "level-asymmetry-allowed=1;packetization-mode=0;profile-level-id=42e01f",
    ),
    (
        127,
        "level-asymmetry-allowed=1;packetization-mode=1;profile-level-id=4d001f",
    ),
    (
        39,
        "level-asymmetry-allowed=1;packetization-mode=0;profile-level-id=4d001f",
    ),
    (
        112,
        "level-asymmetry-allowed=1;packetization-mode=1;profile-level-id=f4001f",
    ),
];

/// RFC 6184, section 8.3: three modes, the interleaved one first.
const MODES: [(u8, &str); 3] = [
    (
        100,
        "profile-level-id=42A01E; packetization-mode=2; sprop-interleaving-depth=45; \
         sprop-deint-buf-req=64000; sprop-init-buf-time=102478; deint-buf-cap=128000",
    ),
    (99, "profile-level-id=42A01E; packetization-mode=1"),
    (98, "profile-level-id=42A01E; packetization-mode=0"),
];

const H264: [Exchange; 18] = [
    // a mode that isn't given is 0
    Exchange {
        offer: &CHROMIUM,
        ours: &["profile-level-id=42e01f;level-asymmetry-allowed=1"],
        answer: Some((
            108,
            "profile-level-id=42e01f;level-asymmetry-allowed=1;packetization-mode=0",
        )),
    },
    // the offer's order of preference, not ours; our own level in both directions of our own
    Exchange {
        offer: &CHROMIUM,
        ours: &[
            "profile-level-id=4d0028;level-asymmetry-allowed=1;packetization-mode=1",
            "profile-level-id=42e034;level-asymmetry-allowed=1;packetization-mode=1",
        ],
        answer: Some((
            106,
            "profile-level-id=42e034;level-asymmetry-allowed=1;packetization-mode=1",
        )),
    },
    // High 4:4:4 Predictive
    Exchange {
        offer: &CHROMIUM,
        ours: &["profile-level-id=f4001f;packetization-mode=1"],
        answer: Some((112, "profile-level-id=f4001f;packetization-mode=1")),
    },
    // Safari's Constrained High is not High
    Exchange {
        offer: &[(
            96,
            "level-asymmetry-allowed=1;packetization-mode=1;profile-level-id=640c1f",
        )],
        ours: &["profile-level-id=64001f;packetization-mode=1"],
        answer: None,
    },
    Exchange {
        offer: &[(
            96,
            "level-asymmetry-allowed=1;packetization-mode=1;profile-level-id=640c1f",
        )],
        ours: &["profile-level-id=640c34;packetization-mode=1"],
        answer: Some((96, "profile-level-id=640c1f;packetization-mode=1")),
    },
    // Firefox's, whose mode 0 isn't said; and by other bytes of one sub-profile
    Exchange {
        offer: &[
            (
                126,
                "profile-level-id=42e01f;level-asymmetry-allowed=1;packetization-mode=1",
            ),
            (97, "profile-level-id=42e01f;level-asymmetry-allowed=1"),
        ],
        ours: &["profile-level-id=4D801F;packetization-mode=0"],
        answer: Some((97, "profile-level-id=42e01f")),
    },
    // RFC 6184, section 8.3
    Exchange {
        offer: &MODES,
        ours: &[
            "profile-level-id=42A01E;packetization-mode=1;max-rcmd-nalu-size=3980",
            "profile-level-id=42A01E;packetization-mode=2;sprop-interleaving-depth=60;\
             sprop-deint-buf-req=86000;sprop-init-buf-time=156320;deint-buf-cap=128000",
        ],
        answer: Some((
            100,
            "profile-level-id=42A01E;packetization-mode=2;sprop-interleaving-depth=60;\
             sprop-deint-buf-req=86000;deint-buf-cap=128000;sprop-init-buf-time=156320",
        )),
    },
    // buffers at their edges: 64000 in 64000 is held, 128001 in 128000 is not
    Exchange {
        offer: &MODES,
        ours: &[
            "profile-level-id=42A01E;packetization-mode=2;sprop-interleaving-depth=60;\
             sprop-deint-buf-req=128000;deint-buf-cap=64000",
        ],
        answer: Some((
            100,
            "profile-level-id=42A01E;packetization-mode=2;sprop-interleaving-depth=60;\
             sprop-deint-buf-req=128000;deint-buf-cap=64000",
        )),
    },
    Exchange {
        offer: &MODES,
        ours: &[
            "profile-level-id=42A01E;packetization-mode=2;sprop-interleaving-depth=60;\
             sprop-deint-buf-req=128001;deint-buf-cap=64000",
        ],
        answer: None,
    },
    Exchange {
        offer: &MODES,
        ours: &[
            "profile-level-id=42A01E;packetization-mode=2;sprop-interleaving-depth=60;\
             sprop-deint-buf-req=0;deint-buf-cap=63999",
            "profile-level-id=42A01E;packetization-mode=1;max-rcmd-nalu-size=3980",
        ],
        answer: Some((
            99,
            "profile-level-id=42A01E;packetization-mode=1;max-rcmd-nalu-size=3980",
        )),
    },
    // level 1.1 to 1b; our own sets are of that level
    Exchange {
        offer: &[(
            98,
            "profile-level-id=42A00B;packetization-mode=1;sprop-parameter-sets=AA==",
        )],
        ours: &[
            "profile-level-id=42B00B;packetization-mode=1;sprop-parameter-sets=Z0IACpZTBYmI;\
             use-level-src-parameter-sets=1",
        ],
        answer: Some((
            98,
            "profile-level-id=42b00b;sprop-parameter-sets=Z0IACpZTBYmI;\
             use-level-src-parameter-sets=1;packetization-mode=1",
        )),
    },
    // and 1b kept, where we take 1.1, whose sets are left out
    Exchange {
        offer: &[(98, "profile-level-id=42B00B;packetization-mode=1")],
        ours: &["profile-level-id=42A00B;packetization-mode=1;sprop-parameter-sets=Z0IACpZTBYmI"],
        answer: Some((98, "profile-level-id=42B00B;packetization-mode=1")),
    },
    // level 3 to 2
    Exchange {
        offer: &[(
            98,
            "profile-level-id=42A01E;packetization-mode=1;sprop-parameter-sets=AA==",
        )],
        ours: &["profile-level-id=42A014;packetization-mode=1"],
        answer: Some((98, "profile-level-id=42a014;packetization-mode=1")),
    },
    // level 2 to 3, where both ends allow it
    Exchange {
        offer: &[(
            98,
            "profile-level-id=42A014;packetization-mode=1;level-asymmetry-allowed=1",
        )],
        ours: &["profile-level-id=42A01E;packetization-mode=1;level-asymmetry-allowed=1"],
        answer: Some((
            98,
            "profile-level-id=42a01e;level-asymmetry-allowed=1;packetization-mode=1",
        )),
    },
    // and not where one of them doesn't
    Exchange {
        offer: &[(98, "profile-level-id=42A014;packetization-mode=1")],
        ours: &["profile-level-id=42A01E;packetization-mode=1;level-asymmetry-allowed=1"],
        answer: Some((98, "profile-level-id=42A014;packetization-mode=1")),
    },
    // sets in band, as the offer asks
    Exchange {
        offer: &[(
            98,
            "profile-level-id=42A01E;packetization-mode=1;in-band-parameter-sets=1",
        )],
        ours: &["profile-level-id=42A01E;packetization-mode=1;sprop-parameter-sets=Z0IACpZTBYmI"],
        answer: Some((98, "profile-level-id=42A01E;packetization-mode=1")),
    },
    // High's level 1b is 9, and higher than 1
    Exchange {
        offer: &[(98, "profile-level-id=640009")],
        ours: &["profile-level-id=64000a;max-fs=99;x-own=1"],
        answer: Some((98, "profile-level-id=64000a;max-fs=99;x-own=1")),
    },
    // nothing is said: Baseline, level 1, mode 0; what we don't know isn't in the answer
    Exchange {
        offer: &[(98, "x-google-start-bitrate=800")],
        ours: &["profile-level-id=42000A;packetization-mode=00"],
        answer: Some((98, "")),
    },
];

const H265: [Exchange; 10] = [
    // as Chromium and Safari offer it
    Exchange {
        offer: &[(49, "level-id=93;profile-id=1;tier-flag=0;tx-mode=SRST")],
        ours: &["level-id=150;profile-id=1;tier-flag=0;tx-mode=SRST"],
        answer: Some((49, "profile-id=1;tier-flag=0;level-id=93;tx-mode=SRST")),
    },
    // the lower level of both, which needn't be said; sets of another level are left out
    Exchange {
        offer: &[(
            49,
            "level-id=150;profile-id=1;tier-flag=0;tx-mode=SRST;sprop-pps=AA==",
        )],
        ours: &["profile-id=1;sprop-vps=QAEMAf//;max-fps=3000"],
        answer: Some((
            49,
            "profile-id=1;tier-flag=0;tx-mode=SRST;sprop-vps=QAEMAf//;max-fps=3000",
        )),
    },
    Exchange {
        offer: &[(49, "profile-id=1")],
        ours: &["level-id=120;sprop-vps=QAEMAf//"],
        answer: Some((49, "profile-id=1")),
    },
    // another tier, profile or mode
    Exchange {
        offer: &[
            (49, "level-id=93;tier-flag=1"),
            (50, "level-id=93;profile-id=2"),
            (51, "level-id=93;tx-mode=MRST"),
            (52, "level-id=93;interop-constraints=000000000000"),
        ],
        ours: &["level-id=93;profile-id=1;tier-flag=0;tx-mode=SRST"],
        answer: None,
    },
    // what is inferred is what is said: in either case of digits, and of the profile's own flag
    Exchange {
        offer: &[(
            49,
            "profile-id=2;interop-constraints=b00000000000;\
             profile-compatibility-indicator=20000000",
        )],
        ours: &["profile-id=2"],
        answer: Some((
            49,
            "profile-id=2;interop-constraints=b00000000000;\
             profile-compatibility-indicator=20000000",
        )),
    },
    Exchange {
        offer: &[(49, "profile-id=1;profile-compatibility-indicator=60000000")],
        ours: &["profile-id=1"],
        answer: None,
    },
    // the highest level is the lower of both too, and said where it's above the level
    Exchange {
        offer: &[(49, "level-id=93;max-recv-level-id=120")],
        ours: &["level-id=90;max-recv-level-id=150"],
        answer: Some((49, "level-id=90;max-recv-level-id=120")),
    },
    Exchange {
        offer: &[(49, "level-id=120")],
        ours: &["level-id=93;max-recv-level-id=123"],
        answer: Some((49, "level-id=93;max-recv-level-id=120")),
    },
    // buffers at their edge, and a choice of an operation point that isn't ours to repeat
    Exchange {
        offer: &[(
            49,
            "sprop-max-don-diff=2;sprop-depack-buf-nalus=2;sprop-depack-buf-bytes=4096;\
             recv-sub-layer-id=1",
        )],
        ours: &["depack-buf-cap=4096"],
        answer: Some((49, "depack-buf-cap=4096")),
    },
    Exchange {
        offer: &[
            (
                49,
                "sprop-max-don-diff=2;sprop-depack-buf-nalus=2;sprop-depack-buf-bytes=4097",
            ),
            (50, "sprop-max-don-diff=2;sprop-depack-buf-bytes=4096"),
            (51, "sprop-max-don-diff=0"),
        ],
        ours: &["depack-buf-cap=4096"],
        answer: Some((51, "depack-buf-cap=4096")),
    },
];

const H266: [Exchange; 6] = [
    Exchange {
        offer: &[(
            96,
            "profile-id=1;tier-flag=0;level-id=83;sprop-max-don-diff=0",
        )],
        ours: &["profile-id=1;level-id=67;max-fps=6000"],
        answer: Some((96, "profile-id=1;tier-flag=0;level-id=67;max-fps=6000")),
    },
    // level 3.1, tier Main and Main 10 are not said
    Exchange {
        offer: &[(96, "")],
        ours: &["profile-id=1;tier-flag=0;level-id=51"],
        answer: Some((96, "")),
    },
    Exchange {
        offer: &[
            (96, "tier-flag=1"),
            (97, "profile-id=33"),
            (98, "sub-profile-id=1"),
        ],
        ours: &["profile-id=1"],
        answer: None,
    },
    Exchange {
        offer: &[
            (96, "sprop-max-don-diff=1;sprop-depack-buf-bytes=8"),
            (
                97,
                "sprop-max-don-diff=1;sprop-depack-buf-bytes=7;recv-ols-id=0",
            ),
        ],
        ours: &["depack-buf-cap=7"],
        answer: Some((97, "depack-buf-cap=7")),
    },
    // layers: the same sprop-vps, or none
    Exchange {
        offer: &[
            (96, "profile-id=17;sprop-vps=AA=="),
            (97, "profile-id=17;level-id=83;sprop-vps=AHs="),
        ],
        ours: &["profile-id=17;level-id=83;sprop-vps=AHs="],
        answer: Some((97, "profile-id=17;level-id=83;sprop-vps=AHs=")),
    },
    // whose own level is above the offer's has no sets for it
    Exchange {
        offer: &[(96, "profile-id=17;sprop-vps=AHs="), (97, "profile-id=17")],
        ours: &["profile-id=17;level-id=83;sprop-vps=AHs="],
        answer: Some((97, "profile-id=17")),
    },
];

/// Each offer has its answer.
fn all_answered<P: Parameter>(exchanges: &[Exchange]) {
    let parsed = |line: &str| line.parse::<CodecParameters<P>>().expect("parameters");
    for exchange in exchanges {
        let offer = exchange.offer.iter().map(|(payload_type, line)| Format {
            payload_type: *payload_type,
            parameters: parsed(line),
        });
        let ours: Vec<_> = exchange.ours.iter().map(|line| parsed(line)).collect();
        let answer = Format::answer_to_any_order(&offer.collect::<Vec<_>>(), &ours);
        let answer = answer.expect("memory");
        let said = answer.map(|it| (it.payload_type, it.parameters.to_string()));
        let want = exchange
            .answer
            .map(|(payload_type, line)| (payload_type, line.to_string()));
        assert_eq!(said, want);
    }
}

#[test]
fn answers_of_h264() {
    all_answered::<H264Parameter>(&H264);
}

#[test]
fn answers_by_level() {
    all_answered::<H265Parameter>(&H265);
    all_answered::<H266Parameter>(&H266);
}
