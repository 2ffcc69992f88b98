//! The text of an access unit that is open, with the run that stands in it.

use crate::proved::h26x_core::CodecExtra;
use crate::proved::h26x_depacketizer::{OpenText, RunRule};
use crate::proved::h264_payload::H264Depacketizer;

/// What stands there: the text, and the data of the open run.
#[track_caller]
fn stands(it: &OpenText, text: &[u8], run: Option<&[u8]>) {
    assert_eq!((it.text(), it.run()), (text, run));
}

/// Takes a packet into a text.
#[track_caller]
fn take(depacketizer: &mut H264Depacketizer, packet: &[u8], text: &mut OpenText) {
    let rule = RunRule {
        is_next: true,
        may_be_inside: true,
    };
    let taken = depacketizer.depacketize_in_text(rule, packet, text, &mut CodecExtra::None);
    assert_eq!(taken, Ok(()), "{} bytes", packet.len());
}

/// A text with a unit of so many bytes in memory for so many, and behind it a run of two bytes, if there is one.
fn text_of(len: usize, memory: usize, has_run: bool) -> (H264Depacketizer, OpenText) {
    let mut depacketizer = H264Depacketizer::new();
    let mut text = OpenText::new(Vec::with_capacity(memory));
    take(&mut depacketizer, &vec![0x61; len], &mut text);
    if has_run {
        take(&mut depacketizer, &[0x7c, 0x85, 2, 3], &mut text);
    }
    (depacketizer, text)
}

/// Behind a unit another begins in fragments. Its data stay where the text is given up, and it ends as ever.
#[test]
fn a_run_whose_text_is_given_up() {
    let (mut depacketizer, mut text) = text_of(2, 0, true);
    stands(&text, &[0, 0, 0, 1, 0x61, 0x61], Some(&[2, 3]));
    text.give_up_text();
    stands(&text, &[], Some(&[2, 3]));
    take(&mut depacketizer, &[0x7c, 0x45, 4], &mut text);
    stands(&text, &[0, 0, 0, 1, 0x65, 2, 3, 4], None);
}

/// The memory of a text that is given up goes, but for what the run in it takes: a prefix, a header and two bytes. Of
/// 2^20 bytes it stays. It isn't said that there was no smaller place.
#[test]
fn memory_of_a_text_that_is_given_up() {
    for (len, memory, has_run, kept) in [
        (10_000, 1 << 20, false, 0),
        (10_000, 1 << 20, true, 1 << 20),
        (10_000, (1 << 20) + 1, true, 7),
    ] {
        let (_, mut text) = text_of(len, memory, has_run);
        text.give_up_text();
        assert!(format!("{text:?}").contains("lacks_place: false"));
        assert_eq!(text.into_text().capacity(), kept);
    }
}
