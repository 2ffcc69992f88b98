//! Answers to offers. What is wanted is by hand, from RFC 6184, 8.2.2, RFC 7798, 7.2.2, and RFC 9328, 7.3.2.

use crate::sdp::*;

/// A payload type and its line.
type Line<'a> = (u8, &'a str);

fn format<P: Parameter>(payload_type: u8, line: &str) -> Format<P> {
    let parameters = line.parse().expect(line);
    Format {
        payload_type,
        parameters,
    }
}

/// The answer to an offer, as it is written.
#[track_caller]
fn answered<P: Parameter>(offer: &[Line], ours: &[&str]) -> Option<(u8, String)> {
    let offer: Vec<Format<P>> = offer.iter().map(|(of, line)| format(*of, line)).collect();
    let ours: Vec<CodecParameters<P>> = ours.iter().map(|it| it.parse().expect(it)).collect();
    let answer = Format::answer_to(&offer, &ours).expect("memory")?;
    // What is written of it is read as the same, and it comes from the format of that payload type.
    let text = answer.parameters.to_string();
    assert_eq!(text.parse().as_ref(), Ok(&answer.parameters));
    let offered = offer
        .iter()
        .find(|it| it.payload_type == answer.payload_type);
    let of_one = offered.expect("an offered one").parameters.answer(&ours);
    assert_eq!(of_one.as_ref(), Ok(&Some(answer.parameters)));
    Some((answer.payload_type, text))
}

/// What Chromium offers of H.264.
const CHROMIUM: [Line; 5] = [
    (
        102,
        "level-asymmetry-allowed=1;packetization-mode=1;profile-level-id=42001f",
    ),
    (
        104,
        "level-asymmetry-allowed=1;packetization-mode=0;profile-level-id=42001f",
    ),
    (
        106,
        "level-asymmetry-allowed=1;packetization-mode=1;profile-level-id=42e01f",
    ),
    (
        108,
        "level-asymmetry-allowed=1;packetization-mode=0;profile-level-id=42e01f",
    ),
    (
        127,
        "level-asymmetry-allowed=1;packetization-mode=1;profile-level-id=4d001f",
    ),
];

#[test]
fn answers_of_h264() {
    let safari = (
        96,
        "level-asymmetry-allowed=1;packetization-mode=1;profile-level-id=640c1f",
    );
    let firefox = (97, "profile-level-id=42e01f;level-asymmetry-allowed=1");
    let rows: [(&[Line], &[&str], Option<Line>); 8] = [
        // The offer's order counts; our level, where both ends allow each direction its own.
        (
            &CHROMIUM,
            &[
                "profile-level-id=4d0028;level-asymmetry-allowed=1;packetization-mode=1",
                "profile-level-id=42e034;level-asymmetry-allowed=1;packetization-mode=1",
            ],
            Some((
                106,
                "profile-level-id=42e034;level-asymmetry-allowed=1;packetization-mode=1",
            )),
        ),
        // A mode that isn't given is 0.
        (
            &CHROMIUM,
            &["profile-level-id=42e01f"],
            Some((108, "profile-level-id=42e01f;packetization-mode=0")),
        ),
        // The lower level: ours, and the offer's.
        (
            &[safari],
            &["profile-level-id=640c15;packetization-mode=1"],
            Some((96, "profile-level-id=640c15;packetization-mode=1")),
        ),
        (
            &[safari],
            &["profile-level-id=640c34;packetization-mode=1"],
            Some((96, "profile-level-id=640c1f;packetization-mode=1")),
        ),
        // Constrained High is not High.
        (
            &[safari],
            &["profile-level-id=64001f;packetization-mode=1"],
            None,
        ),
        // One profile by other bytes; what the offer has that we don't know isn't answered.
        (
            &[firefox],
            &["profile-level-id=4D801F;x=1"],
            Some((97, "profile-level-id=42e01f;x=1")),
        ),
        (&[firefox], &[], None),
        (&[], &["profile-level-id=42e01f"], None),
    ];
    for (offer, ours, wanted) in rows {
        let answer = answered::<H264Parameter>(offer, ours);
        let wanted = wanted.map(|(of, text)| (of, text.to_string()));
        assert_eq!(answer, wanted, "{ours:?}");
    }
}

#[test]
fn answers_of_h265() {
    let chromium = (49, "level-id=180;profile-id=1;tier-flag=0;tx-mode=SRST");
    let ten_bits = (51, "level-id=93;profile-id=2;tier-flag=0;tx-mode=SRST");
    let offer = [chromium, ten_bits];
    let rows: [(&[&str], Option<Line>); 6] = [
        // Profile and tier as offered, the lower level.
        (
            &["level-id=93"],
            Some((49, "profile-id=1;tier-flag=0;level-id=93;tx-mode=SRST")),
        ),
        (
            &["level-id=186"],
            Some((49, "profile-id=1;tier-flag=0;level-id=180;tx-mode=SRST")),
        ),
        (
            &["profile-id=2;level-id=120"],
            Some((51, "profile-id=2;tier-flag=0;level-id=93;tx-mode=SRST")),
        ),
        (&["tier-flag=1;level-id=180"], None),
        (&["profile-id=3"], None),
        (&["tx-mode=MRST"], None),
    ];
    for (ours, wanted) in rows {
        let wanted = wanted.map(|(of, text)| (of, text.to_string()));
        assert_eq!(answered::<H265Parameter>(&offer, ours), wanted, "{ours:?}");
    }
}

#[test]
fn answers_of_h266() {
    let offer = [
        (100, "profile-id=1;level-id=83;sprop-max-don-diff=0"),
        (101, "profile-id=17"),
    ];
    let rows: [(&[&str], Option<Line>); 4] = [
        (&["level-id=51"], Some((100, "profile-id=1;level-id=51"))),
        (&["level-id=99"], Some((100, "profile-id=1;level-id=83"))),
        // Its level is 3.1, where it isn't given.
        (&["profile-id=17;level-id=51"], Some((101, "profile-id=17"))),
        (&["profile-id=33"], None),
    ];
    for (ours, wanted) in rows {
        let wanted = wanted.map(|(of, text)| (of, text.to_string()));
        assert_eq!(answered::<H266Parameter>(&offer, ours), wanted, "{ours:?}");
    }
}
