//! Profiles, tiers and levels by all their numbers, and the header words of H.265.

use crate::random::Random;
use crate::rules::{self, Rule};
use crate::str0m;
use emupedestal as ours;
use std::cmp::Ordering;
use std::collections::{HashMap, HashSet};
use std::fmt::Debug;

/// What was compared: how many answers, and how many of them differ under a rule.
#[derive(Debug, Default)]
pub struct Compared {
    pub answers: u64,
    pub level_1b: u64,
}

/// A comparison, or the first difference under no rule.
pub type Answer = Result<Compared, String>;

/// Compares two answers to a question that `what` names.
fn equal<T: Debug + PartialEq>(
    theirs: T,
    ours: T,
    what: impl FnOnce() -> String,
) -> Result<(), String> {
    if theirs == ours {
        return Ok(());
    }
    Err(format!("{}\nstr0m: {theirs:?}\nours:  {ours:?}", what()))
}

/// Every `profile-level-id`: the 2 to the 24 words of profile_idc, profile_iop and level_idc.
pub fn h264() -> Answer {
    let mut compared = Compared::default();
    let mut named = HashSet::new();
    for word in 0..1 << 24 {
        compared.answers += 1;
        let theirs = str0m::h264_profile::H264ProfileLevel::try_from(word).ok();
        let ours = ours::H264ProfileLevel::try_from(word).ok();
        let of_theirs = theirs.map(|t| (t.profile() as u8, t.level().ordinal()));
        let of_ours = ours.map(|o| (o.profile() as u8, o.level().ordinal()));
        let [_, profile_idc, flags, level_idc] = word.to_be_bytes();
        let what = || format!("profile-level-id {word:06x}");
        if rules::names_level_1b(profile_idc, flags, level_idc) {
            // Level 1b is the second of all levels, behind level 1.
            let level = if level_idc == 11 { 1 } else { 0 };
            let expected = of_theirs.map(|(profile, _)| (profile, level));
            equal(expected, of_ours, what)?;
            compared.level_1b += u64::from(of_theirs != of_ours);
        } else {
            equal(of_theirs, of_ours, what)?;
            if let (Some(t), Some(o)) = (theirs, ours)
                && named.insert(of_theirs)
            {
                let of_theirs = format!("{:?} {:?}", t.profile(), t.level());
                equal(
                    of_theirs,
                    format!("{:?} {:?}", o.profile(), o.level()),
                    what,
                )?;
            }
        }
    }
    h264_levels(&mut compared)?;
    Ok(compared)
}

/// The order of H.264's levels, what stands where a format says nothing, and the top byte.
fn h264_levels(compared: &mut Compared) -> Result<(), String> {
    let level = |id: u32| {
        let word = 0x64_0000 | id;
        let theirs = str0m::h264_profile::H264ProfileLevel::try_from(word | 0xff00_0000).ok()?;
        let ours = ours::H264ProfileLevel::try_from(word | 0xff00_0000).ok()?;
        Some((theirs.level(), ours.level()))
    };
    let levels: Vec<_> = (0..256).filter_map(level).collect();
    equal(levels.len(), 17, || {
        "levels of H.264 with a top byte".into()
    })?;
    for (a, b) in levels
        .iter()
        .flat_map(|a| levels.iter().map(move |b| (a, b)))
    {
        compared.answers += 1;
        equal(a.0.cmp(&b.0), a.1.cmp(&b.1), || {
            format!("order of {a:?} and {b:?}")
        })?;
    }
    let theirs = str0m::h264_profile::H264ProfileLevel::FALLBACK;
    let ours = ours::H264ProfileLevel::FALLBACK;
    let of_theirs = format!("{:?} {:?}", theirs.profile(), theirs.level());
    let of_ours = format!("{:?} {:?}", ours.profile(), ours.level());
    equal(of_theirs, of_ours, || "H.264 where nothing is said".into())
}

/// A profile, a tier and a level, of one of the crates.
trait ThreeIds: Copy + Debug {
    /// What stands where a format says nothing.
    const FALLBACK: Self;

    fn of(ids: [u8; 3]) -> Option<Self>;

    /// The same where an id is not known, too.
    fn of_any(ids: [u8; 3]) -> Self;

    fn of_parameters(parameters: &HashMap<String, String>) -> Option<Self>;

    fn with_level_of(self, other: Self) -> Self;

    fn cmp_levels(self, other: Self) -> Ordering;

    /// All that it answers: names, and ids in two ways.
    fn answers(self) -> (String, [u8; 3], [u8; 3]);
}

macro_rules! three_ids {
    ($type:ty) => {
        impl ThreeIds for $type {
            const FALLBACK: Self = <$type>::FALLBACK;

            fn of([profile, tier, level]: [u8; 3]) -> Option<Self> {
                <$type>::new(profile, tier, level)
            }

            fn of_any([profile, tier, level]: [u8; 3]) -> Self {
                <$type>::from((profile, tier, level))
            }

            fn of_parameters(parameters: &HashMap<String, String>) -> Option<Self> {
                <$type>::from_fmtp(parameters)
            }

            fn with_level_of(self, other: Self) -> Self {
                self.with_level(other.level())
            }

            fn cmp_levels(self, other: Self) -> Ordering {
                self.level().cmp(&other.level())
            }

            fn answers(self) -> (String, [u8; 3], [u8; 3]) {
                let (profile, tier, level) = (self.profile(), self.tier(), self.level());
                let names = format!("{profile:?} {tier:?} {level:?}");
                let ids = [profile.to_id(), tier.to_flag(), level.to_id()];
                (
                    names,
                    ids,
                    [self.profile_id(), self.tier_flag(), self.level_id()],
                )
            }
        }
    };
}

three_ids!(str0m::h265_profile::H265ProfileTierLevel);
three_ids!(str0m::h266_profile::H266ProfileTierLevel);
three_ids!(ours::H265ProfileTierLevel);
three_ids!(ours::H266ProfileTierLevel);

pub fn h265(random: &mut Random) -> Answer {
    type Theirs = str0m::h265_profile::H265ProfileTierLevel;
    all_ids::<Theirs, ours::H265ProfileTierLevel>("H.265", random)
}

pub fn h266(random: &mut Random) -> Answer {
    type Theirs = str0m::h266_profile::H266ProfileTierLevel;
    all_ids::<Theirs, ours::H266ProfileTierLevel>("H.266", random)
}

/// Compares what two answer, each in its place of the two.
fn same<T: ThreeIds, O: ThreeIds>(
    theirs: Option<T>,
    ours: Option<O>,
    what: impl FnOnce() -> String,
) -> Result<(), String> {
    equal(theirs.map(T::answers), ours.map(O::answers), what)
}

/// Every profile, tier and level of a codec with three ids; then some in the other ways to get them.
fn all_ids<T: ThreeIds, O: ThreeIds>(codec: &str, random: &mut Random) -> Answer {
    let mut compared = Compared::default();
    let mut known: Vec<(T, O)> = Vec::new();
    for word in 0..1u32 << 24 {
        compared.answers += 1;
        let [_, profile, tier, level] = word.to_be_bytes();
        let ids = [profile, tier, level];
        let (theirs, ours) = (T::of(ids), O::of(ids));
        same(theirs, ours, || format!("{codec} {ids:?}"))?;
        known.extend(theirs.zip(ours));
    }
    same(Some(T::FALLBACK), Some(O::FALLBACK), || {
        format!("{codec} where nothing is said")
    })?;
    for _ in 0..100_000 {
        compared.answers += 4;
        some_ids::<T, O>(codec, random)?;
        two_known(&known, random)?;
    }
    Ok(compared)
}

/// Ids of which some are not known, and those that parameters name.
fn some_ids<T: ThreeIds, O: ThreeIds>(codec: &str, random: &mut Random) -> Result<(), String> {
    let ids = [random.byte(), random.byte() & 3, random.byte()];
    let (theirs, ours) = (T::of_any(ids), O::of_any(ids));
    same(Some(theirs), Some(ours), || format!("{codec} from {ids:?}"))?;
    let parameters = parameters(random);
    let (theirs, ours) = (T::of_parameters(&parameters), O::of_parameters(&parameters));
    same(theirs, ours, || format!("{codec} of {parameters:?}"))
}

/// The levels of two that are known.
fn two_known<T: ThreeIds, O: ThreeIds>(
    known: &[(T, O)],
    random: &mut Random,
) -> Result<(), String> {
    let [a, b] = [(); 2].map(|()| known[random.below(known.len())]);
    let what = || format!("{a:?} {b:?}");
    equal(a.0.cmp_levels(b.0), a.1.cmp_levels(b.1), what)?;
    same(
        Some(a.0.with_level_of(b.0)),
        Some(a.1.with_level_of(b.1)),
        what,
    )
}

/// Parameters of a format: numbers, mostly known ones, and texts that are none.
fn parameters(random: &mut Random) -> HashMap<String, String> {
    let mut parameters = HashMap::new();
    for (name, known) in [
        ("profile-id", ["1", "2", "17", "33"]),
        ("tier-flag", ["0", "1", "0", "2"]),
        ("level-id", ["93", "51", "120", "255"]),
    ] {
        let value = match random.below(12) {
            0 => continue,
            1 => random
                .of(&["", "+1", "-0", "01", " 1", "256", "1.0", "0x1", "\u{661}"])
                .into(),
            2 => random.between(0, 300).to_string(),
            3 => format!("+{}", random.of(&known)),
            4 => format!("0{}", random.of(&known)),
            _ => random.of(&known).to_string(),
        };
        parameters.insert(name.to_string(), value);
    }
    parameters
}

/// All that a header word answers, of one of the crates.
macro_rules! header {
    ($header:expr) => {{
        let h = $header;
        let is = [
            h.is_aggregation_packet(),
            h.is_fragmentation_unit(),
            h.is_paci_packet(),
        ];
        let of = [h.f(), h.is_type_vcl_unit(), h.is_idr_picture(), h.is_irap()];
        (h.0, [h.nalu_type(), h.layer_id(), h.tid()], is, of)
    }};
}

/// All that a word of TSCI answers, of one of the crates.
macro_rules! tsci {
    ($tsci:expr) => {{
        let t = $tsci;
        (t.tl0picidx(), t.irap_pic_id(), t.s(), t.e(), t.res())
    }};
}

/// Every header word of H.265, every byte of a fragment, and words of TSCI.
pub fn words_h265(random: &mut Random) -> Answer {
    let mut compared = Compared::default();
    for word in 0..=u16::MAX {
        compared.answers += 1;
        let theirs = str0m::h265::H265NALUHeader(word);
        let ours = ours::H265NALUHeader::new((word >> 8) as u8, word as u8);
        equal(header!(theirs), header!(ours), || {
            format!("H265NALUHeader {word:04x}")
        })?;
    }
    for byte in 0..=u8::MAX {
        compared.answers += 1;
        let theirs = str0m::h265::H265FragmentationUnitHeader(byte);
        let ours = ours::H265FragmentationUnitHeader(byte);
        let of_theirs = (theirs.s(), theirs.e(), theirs.fu_type());
        let of_ours = (ours.s(), ours.e(), ours.fu_type());
        equal(of_theirs, of_ours, || {
            format!("H265FragmentationUnitHeader {byte:02x}")
        })?;
    }
    for _ in 0..1 << 20 {
        compared.answers += 1;
        let word = random.word();
        let theirs = tsci!(str0m::h265::H265TSCI(word));
        equal(theirs, tsci!(ours::H265TSCI(word)), || {
            format!("H265TSCI {word:08x}")
        })?;
    }
    Ok(compared)
}

/// The rule under which numbers of profiles may differ.
pub const RULE: Rule = Rule::Level1B;
