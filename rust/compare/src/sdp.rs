//! Offers and formats of one's own as they are drawn, and texts: what both sides read, write and answer beside a plain
//! reading of the RFCs, which shares nothing with them.

mod drawn;
mod h264;
mod h265;
mod h266;
mod reading;

#[cfg(feature = "library")]
use crate::c;
use crate::network::refusal;
use crate::random::Random;
use drawn::{Table, Values, spoil};
use emupedestal::sdp::{
    AgreedSets, AgreedStream, AnswerConfig, AnswerRules, CodecParameters, Direction, H264Parameter,
    H265Parameter, H266Parameter, Parameter,
};
use reading::{Format, Row, Rules, Stream, Way};
use std::slice;
use std::thread;

/// A codec: the library's number of it, its table, and which formats an end may say of itself.
struct Codec {
    number: u32,
    rows: &'static [Row],
    is_allowed: fn(&Format, Rules) -> bool,
}

impl Codec {
    const fn new(
        number: u32,
        rows: &'static [Row],
        is_allowed: fn(&Format, Rules) -> bool,
    ) -> Self {
        Codec {
            number,
            rows,
            is_allowed,
        }
    }
}

const H264: Codec = Codec::new(264, h264::ROWS, h264::is_allowed);
const H265: Codec = Codec::new(265, h265::ROWS, h265::is_allowed);
const H266: Codec = Codec::new(266, h266::ROWS, h266::is_allowed);

/// Of levels that are numbers an answer has the lower one, and the lower one of those that are received, where that is
/// above it.
fn lower_levels<'a>(
    offer: &Format<'a>,
    own: &Format<'a>,
    answer: &mut Format<'a>,
    rows: [usize; 2],
) {
    let [level, highest] = rows;
    let is_ours = own.number(level) < offer.number(level);
    let lower = if is_ours { own } else { offer };
    let top = |it: &Format| it.number(level).max(it.given_number(highest).unwrap_or(0));
    let receiver = if top(own) < top(offer) { own } else { offer };
    let is_said = top(receiver) > receiver.number(level);
    let row = if is_said { highest } else { level };
    let is_above = top(receiver) > lower.number(level);
    answer.put(level, lower.given(level));
    answer.put(highest, receiver.value(row).filter(|_| is_above));
}

/// What was done.
#[derive(Clone, Copy, Default)]
struct Counts {
    pairs: u64,
    answers: u64,
    declared: u64,
    texts: u64,
    taken: u64,
}

/// Room for texts that is used again.
#[derive(Default)]
struct Room {
    texts: [[String; TOGETHER]; 2],
    written: Written,
}

/// The same for what is written.
#[derive(Default)]
struct Written {
    plain: String,
    #[cfg(feature = "library")]
    library: Vec<u8>,
}

/// A format as it is read plainly, by the crate, and by the library.
struct Read<'a, P: Parameter> {
    plain: Format<'a>,
    crates: CodecParameters<P>,
    #[cfg(feature = "library")]
    library: c::End,
}

impl<P: Parameter> Read<'_, P> {
    fn sides(&self) -> Sides<'_, P> {
        Sides {
            plain: &self.plain,
            crates: &self.crates,
            #[cfg(feature = "library")]
            library: &self.library,
        }
    }
}

/// Reads a text by each side, which say the same; leaves what the plain reading writes of it.
fn read_by_each<'a, P: Parameter>(
    codec: &Codec,
    text: &'a str,
    room: &mut Written,
) -> Option<Read<'a, P>> {
    let plain = Format::read(codec.rows, text);
    let crates = text.parse::<CodecParameters<P>>();
    let is_one = match (&plain, &crates) {
        (Ok(plain), Ok(it)) => says(it, plain),
        (Err(refused), Err(error)) => *refused == refusal(*error),
        _ => false,
    };
    assert!(is_one, "the crate reads {crates:?} of {text:?}");
    if let Ok(plain) = &plain {
        plain.write(&mut room.plain);
    }
    #[cfg(feature = "library")]
    let library = c::sdp(codec.number, text.as_bytes());
    #[cfg(feature = "library")]
    {
        let written = library.as_ref().map(|it| it.text_in(&mut room.library));
        let said = plain.as_ref().map(|_| room.plain.as_bytes());
        assert_eq!(written, said, "the library reads {text:?}");
    }
    Some(Read {
        plain: plain.ok()?,
        crates: crates.ok()?,
        #[cfg(feature = "library")]
        library: library.ok()?,
    })
}

/// Reads a text, and what is written of it again; whether it is taken.
fn take_text<P: Parameter>(codec: &Codec, text: &str, room: &mut Written) -> bool {
    let Some(read) = read_by_each::<P>(codec, text, room) else {
        return false;
    };
    let written = read.crates.to_string();
    assert_eq!(written, room.plain, "the crate writes {text:?}");
    let again = written.parse();
    assert_eq!(again.as_ref(), Ok(&read.crates), "{text:?} read again");
    true
}

/// The answer by the plain reading: what is to be ignored in a direction isn't heard, and isn't answered.
fn plain_answer<'a>(
    codec: &Codec,
    offer: &Format<'a>,
    own: &Format<'a>,
    rules: Rules,
    room: &'a mut String,
) -> Option<Format<'a>> {
    if !(codec.is_allowed)(own, rules) {
        return None;
    }
    let offer = &offer.heard(rules.way.of_other());
    let own = &own.heard(rules.way);
    let mut answer = match codec.number {
        264 => h264::answer(offer, own, rules, room),
        265 => h265::answer(offer, own, rules),
        _ => h266::answer(offer, own, rules),
    }?;
    answer.ignore(rules.way);
    Some(answer)
}

/// Whether the crate's format says the same as one that is read plainly.
fn says<P: Parameter>(it: &CodecParameters<P>, plain: &Format) -> bool {
    let mut rows = P::all().iter().enumerate();
    rows.all(|(row, parameter)| it.value(*parameter) == plain.given(row))
        && it.others().eq(plain.others().iter().copied())
}

/// The crate's name of rules.
fn config_of(rules: Rules) -> AnswerConfig {
    AnswerConfig {
        any_order: rules.any_order,
        rules: if rules.webrtc {
            AnswerRules::Webrtc
        } else {
            AnswerRules::Rfc
        },
        direction: match rules.way {
            Way::Both => Direction::SendRecv,
            Way::Receives => Direction::RecvOnly,
            Way::Sends => Direction::SendOnly,
        },
        multicast: rules.multicast,
    }
}

/// The library's number of rules.
#[cfg(feature = "library")]
fn options_of(rules: Rules) -> u32 {
    let way = match rules.way {
        Way::Both => 0,
        Way::Sends => 4,
        Way::Receives => 8,
    };
    let [any_order, webrtc, multicast] =
        [rules.any_order, rules.webrtc, rules.multicast].map(u32::from);
    any_order + 2 * webrtc + way + 16 * multicast
}

/// The stream from one end to another by the plain reading.
fn plain_stream(codec: &Codec, sender: &Format, receiver: &Format, rules: Rules) -> Stream {
    match codec.number {
        264 => h264::stream(sender, receiver, rules),
        265 => h265::stream(sender, receiver),
        _ => h266::stream(sender, receiver),
    }
}

/// What the crate says of a stream.
fn stream_of(it: AgreedStream) -> Stream {
    Stream {
        level: it.level,
        mode: it.mode,
        sets: match it.sets {
            AgreedSets::InBand => "in band",
            AgreedSets::Told => "told",
            AgreedSets::ToldOfLevel => "told of level",
        },
    }
}

/// What the library says of one.
#[cfg(feature = "library")]
fn stream_of_library(it: header::Stream) -> Option<Stream> {
    it.is_there.then(|| Stream {
        level: it.level,
        mode: it.has_mode.then_some(it.mode),
        sets: ["in band", "told", "told of level"][it.sets as usize],
    })
}

/// A format as each side has it.
struct Sides<'a, P: Parameter> {
    plain: &'a Format<'a>,
    crates: &'a CodecParameters<P>,
    #[cfg(feature = "library")]
    library: &'a c::End,
}

/// What an end sends and receives by its format and another's.
fn take_agreed<P: Parameter>(codec: &Codec, [own, other]: [&Sides<P>; 2], rules: Rules) {
    let sends =
        (rules.way != Way::Receives).then(|| plain_stream(codec, own.plain, other.plain, rules));
    let receives =
        (rules.way != Way::Sends).then(|| plain_stream(codec, other.plain, own.plain, rules));
    let wanted = [sends, receives];
    let pair = [own.crates, other.crates];
    let agreed = own.crates.agreed_with(config_of(rules), other.crates);
    let agreed = [agreed.sends, agreed.receives].map(|it| it.map(stream_of));
    assert_eq!(agreed, wanted, "agreed by {pair:?}, {rules:?}");
    #[cfg(feature = "library")]
    {
        let agreed = own.library.agreed(other.library, options_of(rules));
        let agreed = agreed.map(stream_of_library);
        assert_eq!(agreed, wanted, "the library's of {pair:?}, {rules:?}");
    }
}

/// Whether one of ours receives what is declared.
fn take_declared<P: Parameter>(
    codec: &Codec,
    declared: &Read<P>,
    own: &Read<P>,
    rules: Rules,
) -> bool {
    let accepts = match codec.number {
        264 => h264::accepts(&declared.plain, &own.plain, rules),
        265 => h265::accepts(&declared.plain, &own.plain, rules),
        _ => h266::accepts(&declared.plain, &own.plain, rules),
    };
    let ours = slice::from_ref(&own.crates);
    let said = declared.crates.is_accepted_with(config_of(rules), ours);
    let pair = [&declared.crates, &own.crates];
    assert_eq!(said, accepts, "declared and ours {pair:?} by {rules:?}");
    #[cfg(feature = "library")]
    {
        let said = declared
            .library
            .is_accepted(&own.library, options_of(rules));
        assert_eq!(said, accepts, "the library's of {pair:?} by {rules:?}");
    }
    accepts
}

/// Answers an offer by each side; whether there is an answer.
fn take_pair<P: Parameter>(
    codec: &Codec,
    offer: &Read<P>,
    own: &Read<P>,
    rules: Rules,
    room: &mut Written,
) -> bool {
    let (mut made, config) = (String::new(), config_of(rules));
    let plain = plain_answer(codec, &offer.plain, &own.plain, rules, &mut made);
    let ours = slice::from_ref(&own.crates);
    let answer = offer.crates.answer_with(config, ours).expect("memory");
    let is_one = match (&answer, &plain) {
        (Some(answer), Some(plain)) => says(answer, plain),
        (answer, plain) => answer.is_none() && plain.is_none(),
    };
    let pair = [&offer.crates, &own.crates];
    assert!(
        is_one,
        "the crate answers {answer:?} to {pair:?} by {rules:?}"
    );
    let is_allowed = plain.is_some() || own.crates.broken_rule_with(config).is_none();
    let is_allowed_plainly = (codec.is_allowed)(&own.plain, rules);
    assert_eq!(
        is_allowed, is_allowed_plainly,
        "{:?} by {rules:?}",
        own.crates
    );
    #[cfg(feature = "library")]
    let library = offer.library.answer_with(&own.library, options_of(rules));
    #[cfg(feature = "library")]
    {
        let answer = library.as_ref().map(|it| it.text_in(&mut room.library));
        let said = plain.as_ref().map(|it| {
            it.write(&mut room.plain);
            room.plain.as_bytes()
        });
        assert_eq!(answer, said, "the library answers to {pair:?} by {rules:?}");
    }
    #[cfg(not(feature = "library"))]
    let _ = room;
    // Both ends see alike what is agreed.
    let offered = offer.sides();
    let mut answered = own.sides();
    if let (Some(plain), Some(crates)) = (&plain, &answer) {
        (answered.plain, answered.crates) = (plain, crates);
    }
    #[cfg(feature = "library")]
    if let Some(library) = &library {
        answered.library = library;
    }
    take_agreed(codec, [&answered, &offered], rules);
    let of_other = Rules {
        way: rules.way.of_other(),
        ..rules
    };
    take_agreed(codec, [&offered, &answered], of_other);
    plain.is_some()
}

/// How many offers and formats of one's own are drawn together, and each answered by each.
const TOGETHER: usize = 16;

/// Draws formats that are much like another, but for a few, and reads them by each side.
fn draw_like<'a, P: Parameter>(
    codec: &Codec,
    table: &Table,
    values: &Values,
    random: &mut Random,
    texts: &'a mut [String],
    room: &mut Written,
) -> Vec<Read<'a, P>> {
    for text in &mut *texts {
        let is_like = !random.one_in(10);
        let values = if is_like {
            table.like(values, random)
        } else {
            table.format(random)
        };
        table.write(&values, random, text);
    }
    texts
        .iter()
        .filter_map(|text| read_by_each(codec, text, room))
        .collect()
}

/// Draws offers and formats of one's own, much like one another, and answers each by each.
fn take_pairs<P: Parameter>(
    codec: &Codec,
    table: &Table,
    random: &mut Random,
    room: &mut Room,
    counts: &mut Counts,
) {
    let values = table.format(random);
    let ([offers, ours], room) = (&mut room.texts, &mut room.written);
    let offers = draw_like::<P>(codec, table, &values, random, offers, room);
    let ours = draw_like::<P>(codec, table, &values, random, ours, room);
    for own in &ours {
        for offer in &offers {
            let drawn = Rules::draw(random);
            for webrtc in [false, true] {
                let rules = Rules { webrtc, ..drawn };
                counts.answers += u64::from(take_pair(codec, offer, own, rules, room));
                counts.declared += u64::from(take_declared(codec, offer, own, rules));
            }
            counts.pairs += 1;
        }
    }
}

/// One case: a text, or pairs.
fn take<P: Parameter>(
    codec: &Codec,
    table: &Table,
    random: &mut Random,
    room: &mut Room,
    counts: &mut Counts,
    is_text: bool,
) {
    if !is_text {
        return take_pairs::<P>(codec, table, random, room, counts);
    }
    let text = &mut room.texts[0][0];
    table.write(&table.some(random), random, text);
    spoil(text, random);
    counts.taken += u64::from(take_text::<P>(codec, text, &mut room.written));
    counts.texts += 1;
}

/// Draws so many pairs and texts, of the three codecs in turn; ends at the first difference.
fn run_thread(seed: u64, [pairs, texts]: [u64; 2]) -> Counts {
    let (tables, mut counts) = (Table::all(), Counts::default());
    let mut room = Room::default();
    let mut case = 0;
    while counts.pairs < pairs || counts.texts < texts {
        let random = &mut Random::of_case(seed, case);
        let is_text = counts.pairs >= pairs;
        let (room, counts) = (&mut room, &mut counts);
        match case % 3 {
            0 => take::<H264Parameter>(&H264, &tables[0], random, room, counts, is_text),
            1 => take::<H265Parameter>(&H265, &tables[1], random, room, counts, is_text),
            _ => take::<H266Parameter>(&H266, &tables[2], random, room, counts, is_text),
        }
        case += 1;
    }
    counts
}

/// Draws so many pairs and texts, or a few more, each thread as many as another, and says what came of it.
pub fn run(seed: u64, cases: [u64; 2], threads: u64) {
    let counts = thread::scope(|scope| {
        let start = |at| {
            let seed = seed.wrapping_mul(0x9e37_79b9).wrapping_add(at);
            scope.spawn(move || run_thread(seed, cases.map(|it| it.div_ceil(threads))))
        };
        let runs: Vec<_> = (0..threads).map(start).collect();
        let counts = runs.into_iter().map(|it| it.join().expect("no difference"));
        counts.fold(Counts::default(), |a, b| Counts {
            pairs: a.pairs + b.pairs,
            answers: a.answers + b.answers,
            declared: a.declared + b.declared,
            texts: a.texts + b.texts,
            taken: a.taken + b.taken,
        })
    });
    let Counts {
        pairs,
        answers,
        declared,
        texts,
        taken,
    } = counts;
    println!(
        "seed {seed}: {pairs} pairs, {answers} answers and {declared} declared by two rules, {texts} texts, {taken} taken, 0 differences"
    );
    let are_some = |some: u64, all: u64| all < 1000 || all / 10 < some && some < all;
    for some in [answers, declared] {
        assert!(
            are_some(some / 2, pairs),
            "some are answered or received, and some aren't"
        );
    }
    assert!(are_some(taken, texts), "some are taken, and some are not");
}
