//! Answers by direction and by multicast as text: `bindings/streams/directions.txt`, which says how it is written, and
//! which C, Go and Python walk too.

use crate::sdp::{
    AnswerConfig, AnswerRules, CodecParameters, Direction, H264Parameter, H265Parameter,
    H266Parameter, Parameter,
};

const TEXT: &str = include_str!(concat!(
    env!("CARGO_MANIFEST_DIR"),
    "/../../bindings/streams/directions.txt"
));

/// How an end answers, by the words of a row.
fn config_of(how: &str) -> AnswerConfig {
    let mut config = AnswerConfig::default();
    for word in how.split(' ') {
        match word {
            "both" => config.direction = Direction::SendRecv,
            "sends" => config.direction = Direction::SendOnly,
            "receives" => config.direction = Direction::RecvOnly,
            "any-order" => config.any_order = true,
            "webrtc" => config.rules = AnswerRules::Webrtc,
            "multicast" => config.multicast = true,
            _ => panic!("{how}"),
        }
    }
    config
}

fn answered<P: Parameter>(how: &str, offer: &str, ours: &str) -> String {
    let offered: CodecParameters<P> = offer.parse().expect(offer);
    let ours = [ours.parse().expect(ours)];
    let answer = offered.answer_with(config_of(how), &ours).expect("memory");
    answer.map_or("-".into(), |it| it.to_string())
}

#[test]
fn directions_of_the_text() {
    let rows: Vec<&str> = TEXT.lines().filter(|row| !row.starts_with('#')).collect();
    for row in &rows {
        let columns: Vec<&str> = row.split('|').map(str::trim).collect();
        let [codec, how, offer, ours, wanted] = columns[..] else {
            panic!("{row}");
        };
        let answer = match codec {
            "h264" => answered::<H264Parameter>(how, offer, ours),
            "h265" => answered::<H265Parameter>(how, offer, ours),
            "h266" => answered::<H266Parameter>(how, offer, ours),
            _ => panic!("{row}"),
        };
        assert_eq!(answer, wanted, "{row}");
    }
    assert!(rows.len() > 30);
}
