//! The differences that may be: each a row of docs/DIFFERENCES.md that a call can show, with its
//! words and with a predicate on the calls that says when it may.
//!
//! Where no predicate holds, both crates have to answer the same. Where one holds, ours has to
//! answer as `packetizer` and `depacketizer` work out by the words of docs/DEFINITIONS.md.

use crate::answers::Codec;

/// Names each rule beside the first two cells of its row: what str0m does, and what is done here.
macro_rules! rules {
    ($($name:ident: $str0m:literal, $here:literal;)*) => {
        /// A row that a call can show.
        #[derive(Debug, Clone, Copy, PartialEq, Eq)]
        #[repr(u8)]
        pub enum Rule {
            $($name,)*
        }

        impl Rule {
            pub const ALL: &[Rule] = &[$(Rule::$name,)*];

            /// The first two cells of its row.
            pub fn row(self) -> (&'static str, &'static str) {
                match self {
                    $(Rule::$name => ($str0m, $here),)*
                }
            }
        }
    };
}

rules! {
    Panics:
        "bugs end in a panic",
        "no call panics";
    StartlessOpens:
        "a fragment without a start opens a run (H.264)",
        "it is accepted, writes nothing and leaves the extra";
    SecondStart:
        "a second start is added to the open run (H.264 ignores S)",
        "it opens a new run and gives up the open one";
    EmptyStapUnit:
        "a length of 0 in a STAP-A writes an empty unit where a byte follows, and takes the flag \
         from that byte; in detection too",
        "it is skipped";
    StapLengthCut:
        "STAP-A lengths over 65535 are cut to 16 bits when sent",
        "such sets count as not fitting";
    SetsDropped:
        "an SPS and a PPS that don't fit one STAP-A are dropped",
        "each that fits goes alone, as for H.265 and H.266";
    MaxPacketSize:
        "the largest packet of H.265 and H.266 is 1200 bytes",
        "`with_max_packet_size` sets it; 1200 at first";
    UnitsStay:
        "earlier units of an aggregate stay in `out`, and their flag, when a later length is bad \
         (H.264 and H.265)",
        "nothing stays after a refusal";
    LoneUnitStays:
        "the unit of an aggregate that has no second one stays in `out`, and its flag (H.265 and \
         H.266)",
        "nothing stays after a refusal";
    FlagStays:
        "the flag of earlier units of an aggregate stays when a later one is bad (H.266)",
        "nothing stays after a refusal";
    KeptBufferCounts:
        "equality of depacketizers sees a kept buffer",
        "it sees the open run, and no bytes of a finished one";
    Avc:
        "only the H.264 depacketizer has `is_avc`",
        "all three have it";
    DonlPassesLimit:
        "single packets of H.265 with DONL pass the limit by two bytes",
        "DONL counts";
    PaciHeader:
        "the payload of a PACI packet is written without a header, and its flag taken from \
         payload bytes",
        "the unit's header is rebuilt from A, cType, layer and temporal id, and the flag is the \
         unit's";
    Tsci:
        "`tsci` puts extension bytes 0, 1 and 0 at bits 23 to 0",
        "the first three bytes at bits 31 to 8, and 0 below";
    PaciShortUnit:
        "PACI `packetize` indexes a unit under two bytes",
        "`ErrShortPacket`";
    RunsNeverClosed:
        "runs of H.265 and H.266 are never closed: later fragments are added to a run that was \
         written",
        "an end closes it";
    SinglesStay:
        "bytes or a flag stay after a refusal (H.266 singles with DONL)",
        "nothing stays";
    GiveUpRun:
        "a depacketizer holds an open run until a packet ends or replaces it",
        "`give_up_run` closes it and frees its buffer";
    Level1B:
        "level 1b of the profiles 66, 77 and 88 is level id 10 with constraint set 3",
        "it is level id 11 with it";
}

/// Some of the rules.
#[derive(Debug, Clone, Copy, Default, PartialEq, Eq)]
pub struct Rules {
    bits: u32,
}

impl Rules {
    pub fn is_empty(self) -> bool {
        self.bits == 0
    }

    pub fn has(self, rule: Rule) -> bool {
        self.bits >> rule as u8 & 1 == 1
    }

    pub fn add(&mut self, rules: impl Into<Rules>) {
        self.bits |= rules.into().bits;
    }

    /// Adds a rule where its predicate holds.
    pub fn add_if(&mut self, holds: bool, rule: Rule) {
        if holds {
            self.add(rule);
        }
    }
}

impl From<Rule> for Rules {
    fn from(rule: Rule) -> Self {
        Rules {
            bits: 1 << rule as u8,
        }
    }
}

// ---- Sending ----

/// What a limit is to a set of parameters, or to a unit: of ours, and of str0m.
#[derive(Debug, Clone, Copy)]
pub struct Limits {
    pub ours: usize,
    pub theirs: usize,
    /// The bytes of DONL: 2, or 0 where packets bear none.
    pub donl: usize,
}

impl Limits {
    /// Whether the largest packet size is over 1200 and parts the limits.
    pub fn are_parted(self) -> bool {
        self.ours != self.theirs
    }
}

/// `StapLengthCut`: an SPS and a PPS fit a STAP-A, and the length of one has no room in 16 bits.
pub fn stap_length_is_cut(sps: usize, pps: usize, limit: usize) -> bool {
    sps.max(pps) > 65535 && 5 + sps + pps <= limit
}

/// `SetsDropped`: an SPS and a PPS fit no STAP-A, and one of them fits alone.
pub fn sets_are_dropped(sps: usize, pps: usize, limit: usize) -> bool {
    5 + sps + pps > limit && sps.min(pps) <= limit
}

/// `DonlPassesLimit`: a unit of H.265, which goes alone, fits without DONL and not with it.
pub fn donl_passes_limit(codec: Codec, unit: usize, limits: Limits) -> bool {
    codec == Codec::H265 && unit <= limits.theirs && unit + limits.donl > limits.ours
}

/// `MaxPacketSize`, of a unit: it is longer than str0m's largest packet, and ours is larger.
pub fn size_parts_unit(unit: usize, limits: Limits) -> bool {
    limits.are_parted() && unit + limits.donl > limits.theirs
}

/// `MaxPacketSize`, of sets: one packet of them is longer than str0m's largest, ours is larger, and
/// they fit that, or one of them alone does.
pub fn size_parts_sets(packet: usize, sets: &[usize], limits: Limits) -> bool {
    let parts_one = |set: &usize| (limits.theirs + 1..=limits.ours).contains(&(set + limits.donl));
    limits.are_parted()
        && packet > limits.theirs
        && (packet <= limits.ours || sets.iter().any(parts_one))
}

// ---- Receiving ----

/// `StartlessOpens`: a fragment of H.264 without S where no run is open.
pub fn startless_opens(codec: Codec, starts: bool, is_open: bool) -> bool {
    codec == Codec::H264 && !starts && !is_open
}

/// `SecondStart`: a fragment of H.264 with S where a run is open that holds data.
pub fn second_start_is_added(codec: Codec, starts: bool, open: Option<&[u8]>) -> bool {
    codec == Codec::H264 && starts && open.is_some_and(|data| !data.is_empty())
}

/// `RunsNeverClosed`: a run of H.265 or H.266 was ended, and until the next S fragments are added to
/// it.
pub fn run_is_not_closed(codec: Codec, had_run: bool) -> bool {
    codec != Codec::H264 && had_run
}

/// `EmptyStapUnit`: a length of 0 in a STAP-A, and a byte behind it.
pub fn stap_unit_is_empty(len: usize, bytes_behind: usize) -> bool {
    len == 0 && bytes_behind > 0
}

/// `UnitsStay`: an aggregate of H.264 or H.265 is refused for bytes that are no whole unit, and units
/// stand before them.
pub fn units_stay(codec: Codec, units_before: usize, bytes_behind: usize) -> bool {
    codec != Codec::H266 && units_before > 0 && bytes_behind > 0
}

/// `LoneUnitStays`: an aggregate of H.265 or H.266 is refused, and has one unit and nothing behind.
pub fn lone_unit_stays(codec: Codec, units: usize, bytes_behind: usize) -> bool {
    codec != Codec::H264 && units == 1 && bytes_behind == 0
}

/// `FlagStays`: an aggregate of H.266 is refused for what stands behind its first unit or units.
pub fn flag_stays(codec: Codec, units_before: usize, bytes_behind: usize) -> bool {
    codec == Codec::H266 && units_before > 0 && bytes_behind > 0
}

/// These three, of an aggregate that is refused behind so many units and before so many bytes.
pub fn of_refused_aggregate(codec: Codec, units: usize, bytes_behind: usize) -> Rules {
    let mut rules = Rules::default();
    rules.add_if(units_stay(codec, units, bytes_behind), Rule::UnitsStay);
    let alone = lone_unit_stays(codec, units, bytes_behind);
    rules.add_if(alone, Rule::LoneUnitStays);
    rules.add_if(flag_stays(codec, units, bytes_behind), Rule::FlagStays);
    rules
}

/// `SinglesStay`: a single packet of H.266 has no byte behind DONL.
pub fn singles_stay(codec: Codec, has_donl: bool, packet: usize) -> bool {
    codec == Codec::H266 && has_donl && packet < 5
}

/// `Avc`: units of H.265 or H.266 are written behind lengths.
pub fn writes_avc(codec: Codec, is_avc: bool, units: usize) -> bool {
    codec != Codec::H264 && is_avc && units > 0
}

/// `KeptBufferCounts`: of two depacketizers of H.265 the open runs are equal and the buffers are
/// not, or the reverse.
pub fn kept_buffer_counts(codec: Codec, same_runs: bool, same_buffers: bool) -> bool {
    codec == Codec::H265 && same_runs != same_buffers
}

// ---- The rest ----

/// `PaciShortUnit`: a PACI packet of a unit without a whole header is asked for.
pub fn paci_unit_is_short(unit: usize) -> bool {
    unit < 2
}

/// `Panics`: the same where str0m gets as far as the header.
pub fn panics(unit: usize, extension: usize) -> bool {
    paci_unit_is_short(unit) && extension <= 31
}

/// `Tsci`: F0 is set, and the extension has three bytes or more.
pub fn has_tsci(f0: bool, extension: &[u8]) -> bool {
    f0 && extension.len() >= 3
}

/// `Level1B`: level id 10 or 11 with constraint set 3, of the profiles 66, 77 and 88.
pub fn names_level_1b(profile_idc: u8, flags: u8, level_idc: u8) -> bool {
    matches!(profile_idc, 66 | 77 | 88) && flags & 0x10 != 0 && matches!(level_idc, 10 | 11)
}
