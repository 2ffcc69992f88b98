//! What packets leave, and what ours has to answer to the next one, by the words of
//! docs/DEFINITIONS.md.

use crate::answers::{Codec, Extra, Facts, Why};
use crate::rules::{self, Rule, Rules};

/// A depacketizer after some packets: of ours, and what parts str0m's from it.
#[derive(Debug, Clone)]
pub struct DepacketizerModel {
    codec: Codec,
    has_donl: bool,
    is_avc: bool,
    /// The data of the open run.
    run: Option<Vec<u8>>,
    /// What str0m's depacketizer has in its place.
    their_run: Option<Vec<u8>>,
    /// Why these differ.
    because: Rules,
    /// The packet that was accepted last, and whether DONL was read then.
    last: Option<(Vec<u8>, bool)>,
}

/// What ours has to answer to a packet, and the rules of which a predicate holds.
#[derive(Debug)]
pub struct Expected {
    pub taken: Result<(), Why>,
    pub written: Vec<u8>,
    pub extra: Extra,
    pub rules: Rules,
}

/// What a packet is.
enum Reading<'a> {
    Refused(Why),
    Units(Vec<Vec<u8>>),
    Fragment(Fragment<'a>),
}

struct Fragment<'a> {
    starts: bool,
    ends: bool,
    header: Vec<u8>,
    data: &'a [u8],
}

impl DepacketizerModel {
    pub fn new(codec: Codec) -> Self {
        DepacketizerModel {
            codec,
            has_donl: false,
            is_avc: false,
            run: None,
            their_run: None,
            because: Rules::default(),
            last: None,
        }
    }

    pub fn with_donl(&mut self, has_donl: bool) {
        self.has_donl = has_donl;
    }

    pub fn set_avc(&mut self, is_avc: bool) {
        self.is_avc = is_avc;
    }

    pub fn give_up_run(&mut self) {
        self.because.add_if(self.run.is_some(), Rule::GiveUpRun);
        self.run = None;
        self.note();
    }

    /// The settings: whether DONL is read, and whether lengths are written.
    pub fn settings(&self) -> (bool, bool) {
        (self.has_donl, self.is_avc)
    }

    /// The packet that was accepted last, if any; `None` where it was taken with another setting.
    pub fn last(&self) -> Option<Vec<Vec<u8>>> {
        match &self.last {
            None => Some(Vec::new()),
            Some((packet, has_donl)) if *has_donl == self.has_donl => Some(vec![packet.clone()]),
            Some(_) => None,
        }
    }

    /// Whether ours is equal to a new one that was given these packets alone, and the rules of
    /// which a predicate holds.
    pub fn is_same_as(&self, packets: &[Vec<u8>]) -> (bool, Rules) {
        let mut other = DepacketizerModel::new(self.codec);
        other.has_donl = self.has_donl;
        for packet in packets {
            other.take(packet, Extra::None);
        }
        let same_runs = self.run == other.run;
        let same_buffers = self.their_run == other.their_run;
        let mut rules = Rules::default();
        let kept = rules::kept_buffer_counts(self.codec, same_runs, same_buffers);
        rules.add_if(kept, Rule::KeptBufferCounts);
        if self.codec == Codec::H264 && same_runs != same_buffers {
            rules.add(self.because);
            rules.add(other.because);
        }
        (same_runs, rules)
    }

    /// What a packet has to answer, where so much was told before.
    pub fn take(&mut self, packet: &[u8], extra: Extra) -> Expected {
        let mut rules = Rules::default();
        let units = match self.read(packet, &mut rules) {
            Reading::Refused(why) => return refused(why, extra, rules),
            Reading::Units(units) => units,
            Reading::Fragment(fragment) => self.take_fragment(fragment, &mut rules),
        };
        self.last = Some((packet.to_vec(), self.has_donl));
        let long = rules::writes_avc(self.codec, self.is_avc, units.len());
        rules.add_if(long, Rule::Avc);
        let types = units.iter().filter_map(|unit| self.whole_type(unit));
        let key = types.map(|t| self.codec.is_key(t)).reduce(|a, b| a | b);
        Expected {
            taken: Ok(()),
            written: self.write(&units),
            extra: extra.after(self.codec, key),
            rules,
        }
    }

    /// The type of a unit with a whole header.
    fn whole_type(&self, unit: &[u8]) -> Option<u8> {
        let whole = unit.len() >= self.codec.header_len();
        self.codec.type_of(unit).filter(|_| whole)
    }

    /// Units behind start codes, or behind lengths.
    fn write(&self, units: &[Vec<u8>]) -> Vec<u8> {
        let mut written = Vec::new();
        for unit in units {
            let before = if self.is_avc { unit.len() as u32 } else { 1 };
            written.extend(before.to_be_bytes());
            written.extend(unit);
        }
        written
    }

    /// Takes a fragment; the unit that it ends, if it ends one.
    fn take_fragment(&mut self, fragment: Fragment, rules: &mut Rules) -> Vec<Vec<u8>> {
        let codec = self.codec;
        let startless = rules::startless_opens(codec, fragment.starts, self.their_run.is_some());
        let second =
            rules::second_start_is_added(codec, fragment.starts, self.their_run.as_deref());
        self.because.add_if(startless, Rule::StartlessOpens);
        self.because.add_if(second, Rule::SecondStart);
        if fragment.starts {
            self.run = Some(Vec::new());
        }
        match &mut self.their_run {
            None if fragment.starts || codec == Codec::H264 => self.their_run = Some(Vec::new()),
            Some(run) if fragment.starts && codec != Codec::H264 => run.clear(),
            _ => {}
        }
        for run in [&mut self.run, &mut self.their_run].into_iter().flatten() {
            run.extend(fragment.data);
        }
        self.note();
        if !fragment.ends {
            return Vec::new();
        }
        rules.add(self.because);
        let run = self.run.take();
        if codec == Codec::H264 {
            self.their_run = None;
        }
        let not_closed = rules::run_is_not_closed(codec, self.their_run.is_some());
        self.because.add_if(not_closed, Rule::RunsNeverClosed);
        self.note();
        let unit = |data: Vec<u8>| [fragment.header, data].concat();
        run.map(unit).into_iter().collect()
    }

    /// Forgets why runs differed, where they don't.
    fn note(&mut self) {
        if self.run == self.their_run {
            self.because = Rules::default();
        }
    }

    fn read<'a>(&self, packet: &'a [u8], rules: &mut Rules) -> Reading<'a> {
        match self.codec {
            Codec::H264 => read_h264(packet, rules),
            _ if packet.len() <= 2 => Reading::Refused(Why::Short),
            Codec::H265 if packet[0] >> 7 == 1 => Reading::Refused(Why::Corrupted265),
            Codec::H266 if packet[0] >> 7 == 1 => Reading::Refused(Why::Corrupted266),
            Codec::H265 => match packet[0] >> 1 {
                48 => self.read_aggregate_h265(packet, rules),
                49 => self.read_fragment(packet),
                50 => read_paci(packet, rules),
                _ => self.read_single(packet, rules),
            },
            Codec::H266 => match packet[1] >> 3 {
                28 => self.read_aggregate_h266(packet, rules),
                29 => self.read_fragment(packet),
                _ => self.read_single(packet, rules),
            },
        }
    }

    /// A single packet of H.265 or H.266.
    fn read_single<'a>(&self, packet: &'a [u8], rules: &mut Rules) -> Reading<'a> {
        let stays = rules::singles_stay(self.codec, self.has_donl, packet.len());
        rules.add_if(stays, Rule::SinglesStay);
        if !self.has_donl {
            Reading::Units(vec![packet.to_vec()])
        } else if packet.len() < 5 {
            Reading::Refused(Why::Short)
        } else {
            Reading::Units(vec![[&packet[..2], &packet[4..]].concat()])
        }
    }

    /// A fragment of H.265 or H.266.
    fn read_fragment<'a>(&self, packet: &'a [u8]) -> Reading<'a> {
        let is_h265 = self.codec == Codec::H265;
        let starts = packet[2] >> 7 == 1;
        let donl = if starts && self.has_donl { 2 } else { 0 };
        if packet.len() < 3 + donl + usize::from(is_h265) {
            return Reading::Refused(Why::Short);
        }
        let header = if is_h265 {
            vec![packet[0] & 0x81 | (packet[2] & 0x3f) << 1, packet[1]]
        } else {
            vec![packet[0], packet[2] << 3 | packet[1] & 7]
        };
        Reading::Fragment(Fragment {
            starts,
            ends: packet[2] >> 6 & 1 == 1,
            header,
            data: &packet[3 + donl..],
        })
    }

    /// An aggregate of H.265: the pieces that are whole.
    fn read_aggregate_h265<'a>(&self, packet: &'a [u8], rules: &mut Rules) -> Reading<'a> {
        let (mut units, mut left) = (Vec::new(), &packet[2..]);
        loop {
            let donl = match (self.has_donl, units.len()) {
                (false, _) => 0,
                (true, 0) => 2,
                (true, _) => 1,
            };
            let Some(Piece::Whole(unit, behind)) = left.get(donl..).map(piece) else {
                break;
            };
            units.push(unit.to_vec());
            left = behind;
        }
        if units.len() < 2 {
            rules.add(rules::of_refused_aggregate(
                Codec::H265,
                units.len(),
                left.len(),
            ));
            return Reading::Refused(Why::Short);
        }
        Reading::Units(units)
    }

    /// An aggregate of H.266: whole units up to the end.
    fn read_aggregate_h266<'a>(&self, packet: &'a [u8], rules: &mut Rules) -> Reading<'a> {
        let header = if self.has_donl { 4 } else { 2 };
        let Some(mut left) = packet.get(header..) else {
            return Reading::Refused(Why::Short);
        };
        let mut units = Vec::new();
        let mut fault = None;
        while !left.is_empty() && fault.is_none() {
            match piece(left) {
                Piece::Whole(unit, behind) if unit.len() >= 2 => {
                    if matches!(unit[1] >> 3, 28 | 29) {
                        fault = Some(Why::Corrupted266);
                    } else {
                        units.push(unit.to_vec());
                        left = behind;
                    }
                }
                _ => fault = Some(Why::Short),
            }
        }
        if fault.is_some() || units.len() < 2 {
            rules.add(rules::of_refused_aggregate(
                Codec::H266,
                units.len(),
                left.len(),
            ));
            return Reading::Refused(fault.unwrap_or(Why::Short));
        }
        Reading::Units(units)
    }
}

/// A packet that is refused changes nothing.
fn refused(why: Why, extra: Extra, rules: Rules) -> Expected {
    Expected {
        taken: Err(why),
        written: Vec::new(),
        extra,
        rules,
    }
}

/// What stands at the front of bytes behind a length of two bytes.
enum Piece<'a> {
    /// It is whole, and this is behind it.
    Whole(&'a [u8], &'a [u8]),
    /// So many bytes are wanted, and so many are there.
    Cut(usize, usize),
    /// There is no whole length.
    None,
}

fn piece(bytes: &[u8]) -> Piece<'_> {
    let [high, low, behind @ ..] = bytes else {
        return Piece::None;
    };
    let len = usize::from(*high) << 8 | usize::from(*low);
    match behind.split_at_checked(len) {
        Some((piece, behind)) => Piece::Whole(piece, behind),
        None => Piece::Cut(len, behind.len()),
    }
}

fn read_h264<'a>(packet: &'a [u8], rules: &mut Rules) -> Reading<'a> {
    match packet {
        [] => Reading::Refused(Why::Short),
        [first, ..] if (1..=23).contains(&(first & 0x1f)) => Reading::Units(vec![packet.to_vec()]),
        [first, behind @ ..] if first & 0x1f == 24 => read_stap_a(behind, rules),
        [first] if first & 0x1f == 28 => Reading::Refused(Why::Short),
        [first, second, data @ ..] if first & 0x1f == 28 => Reading::Fragment(Fragment {
            starts: second >> 7 == 1,
            ends: second >> 6 & 1 == 1,
            header: vec![first & 0x60 | second & 0x1f],
            data,
        }),
        [first, ..] => Reading::Refused(Why::NotHandled(first & 0x1f)),
    }
}

/// What stands behind the header of a STAP-A: units behind their lengths.
fn read_stap_a<'a>(mut left: &'a [u8], rules: &mut Rules) -> Reading<'a> {
    let (mut units, mut written) = (Vec::new(), 0);
    loop {
        match piece(left) {
            Piece::Whole(unit, behind) => {
                let empty = rules::stap_unit_is_empty(unit.len(), behind.len());
                rules.add_if(empty, Rule::EmptyStapUnit);
                written += usize::from(empty || !unit.is_empty());
                units.extend((!unit.is_empty()).then(|| unit.to_vec()));
                left = behind;
            }
            Piece::Cut(len, there) => {
                rules.add(rules::of_refused_aggregate(
                    Codec::H264,
                    written,
                    left.len(),
                ));
                return Reading::Refused(Why::StapATooLong(len, there));
            }
            Piece::None => return Reading::Units(units),
        }
    }
}

/// A PACI packet: its unit, with the header that is rebuilt.
fn read_paci<'a>(packet: &'a [u8], rules: &mut Rules) -> Reading<'a> {
    let [first, second, high, low, behind @ ..] = packet else {
        return Reading::Refused(Why::Short);
    };
    let extension = usize::from(high & 1) << 4 | usize::from(low >> 4);
    if behind.len() <= extension {
        return Reading::Refused(Why::Short);
    }
    rules.add(Rule::PaciHeader);
    // A as F, cType and the highest bit of the layer; the rest of the layer and the temporal id.
    let header = [high & 0xfe | first & 1, *second];
    Reading::Units(vec![[&header[..], &behind[extension..]].concat()])
}

/// Whether ours detects a type in a packet of H.264, and the rules of which a predicate holds.
pub fn detects_h264(packet: &[u8], nalu_type: u8) -> (bool, Rules) {
    let mut rules = Rules::default();
    let [first, left @ ..] = packet else {
        return (false, rules);
    };
    if first & 0x1f != 24 {
        let fragment = first & 0x1f == 28;
        let starts = packet.get(1).filter(|second| *second >> 7 == 1);
        let is_single = (1..=23).contains(&(first & 0x1f)) && first & 0x1f == nalu_type;
        let is_first = fragment && starts.is_some_and(|second| second & 0x1f == nalu_type);
        return (is_single || is_first, rules);
    }
    let (mut found, mut left) = (false, left);
    while let Piece::Whole(unit, behind) = piece(left) {
        let empty = rules::stap_unit_is_empty(unit.len(), behind.len());
        rules.add_if(empty, Rule::EmptyStapUnit);
        found |= unit.first().is_some_and(|first| first & 0x1f == nalu_type);
        left = behind;
    }
    (found, rules)
}
