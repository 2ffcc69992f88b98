//! Which answers of H.264 there are, what is agreed, and which declared formats are received, read plainly (RFC 6184, 8.1,
//! 8.2.2 with its table 6, and 8.2.3; of WebRTC's peers libwebrtc's h264_profile_level_id.cc).

use super::reading::{Format, Kind::*, Row, Rules, Stream, Way, rows};

const ANY: u64 = u64::MAX;
const WORD: u64 = u32::MAX as u64;

rows! {
    PROFILE_LEVEL_ID "profile-level-id" "CCP" Digits(6), Some("42000a");
    MAX_RECV_LEVEL "max-recv-level" "RR-" Digits(4), None;
    MAX_MBPS "max-mbps" "RR-" Number(0, ANY), None;
    MAX_SMBPS "max-smbps" "RR-" Number(0, ANY), None;
    MAX_FS "max-fs" "RR-" Number(0, ANY), None;
    MAX_CPB "max-cpb" "RR-" Number(0, ANY), None;
    MAX_DPB "max-dpb" "RR-" Number(0, ANY), None;
    MAX_BR "max-br" "RR-" Number(0, ANY), None;
    REDUNDANT_PIC_CAP "redundant-pic-cap" "RR-" Number(0, 1), Some("0");
    SETS "sprop-parameter-sets" "S-S" Text, None;
    LEVEL_SETS "sprop-level-parameter-sets" "S-S" Text, None;
    USE_LEVEL_SETS "use-level-src-parameter-sets" "RR-" Number(0, 1), Some("0");
    IN_BAND "in-band-parameter-sets" "RR-" Number(0, 1), None;
    ASYMMETRY "level-asymmetry-allowed" "O--" Number(0, 1), Some("0");
    MODE "packetization-mode" "CCP" Number(0, 2), Some("0");
    DEPTH "sprop-interleaving-depth" "P-P" Number(0, 32767), None;
    NEED "sprop-deint-buf-req" "P-P" Number(0, WORD), None;
    ROOM "deint-buf-cap" "RR-" Number(0, WORD), Some("0");
    INIT_TIME "sprop-init-buf-time" "P-P" Number(0, WORD), None;
    DON_DIFF "sprop-max-don-diff" "P-P" Number(0, 32767), None;
    MAX_RCMD "max-rcmd-nalu-size" "RR-" Number(0, WORD), None;
    SAR_UNDERSTOOD "sar-understood" "RR-" Number(0, 254), Some("13");
    SAR_SUPPORTED "sar-supported" "RR-" Number(1, 255), None;
}

/// Table 5, with Constrained High of Rec. ITU-T H.264, A.2.4.2: profile, profile_idc, profile-iop bit by bit.
const SUB_PROFILES: [(&str, u8, &[u8; 8]); 16] = [
    ("CB", 0x42, b"x1xx0000"),
    ("CB", 0x4d, b"1xxx0000"),
    ("CB", 0x58, b"11xx0000"),
    ("B", 0x42, b"x0xx0000"),
    ("B", 0x58, b"10xx0000"),
    ("M", 0x4d, b"0x0x0000"),
    ("E", 0x58, b"00xx0000"),
    ("H", 0x64, b"00000000"),
    ("CH", 0x64, b"00001100"),
    ("H10", 0x6e, b"00000000"),
    ("H42", 0x7a, b"00000000"),
    ("H44", 0xf4, b"00000000"),
    ("H10I", 0x6e, b"00010000"),
    ("H42I", 0x7a, b"00010000"),
    ("H44I", 0xf4, b"00010000"),
    ("C44I", 0x2c, b"00010000"),
];

/// Rec. ITU-T H.264, table A-1: ten times the level (1b between 1 and 1.1), MaxMBPS, MaxFS, MaxDpbMbs, MaxBR, MaxCPB.
const LEVELS: [(f32, [u64; 5]); 20] = [
    (10., [1485, 99, 396, 64, 175]),
    (10.5, [1485, 99, 396, 128, 350]),
    (11., [3000, 396, 900, 192, 500]),
    (12., [6000, 396, 2376, 384, 1000]),
    (13., [11880, 396, 2376, 768, 2000]),
    (20., [11880, 396, 2376, 2000, 2000]),
    (21., [19800, 792, 4752, 4000, 4000]),
    (22., [20250, 1620, 8100, 4000, 4000]),
    (30., [40500, 1620, 8100, 10000, 10000]),
    (31., [108000, 3600, 18000, 14000, 14000]),
    (32., [216000, 5120, 20480, 20000, 20000]),
    (40., [245760, 8192, 32768, 20000, 25000]),
    (41., [245760, 8192, 32768, 50000, 62500]),
    (42., [522240, 8704, 34816, 50000, 62500]),
    (50., [589824, 22080, 110400, 135000, 135000]),
    (51., [983040, 36864, 184320, 240000, 240000]),
    (52., [2073600, 36864, 184320, 240000, 240000]),
    (60., [4177920, 139264, 696320, 240000, 240000]),
    (61., [8355840, 139264, 696320, 480000, 480000]),
    (62., [16711680, 139264, 696320, 800000, 800000]),
];

/// The profile_idc of Rec. ITU-T H.264, Annex A, and of Annexes F to J (several layers, views, depth).
const PROFILE_IDCS: [u8; 16] = [
    66, 77, 88, 100, 110, 122, 244, 44, 83, 86, 118, 128, 134, 135, 138, 139,
];

fn limits(level: f32) -> Option<[u64; 5]> {
    LEVELS.iter().find(|it| it.0 == level).map(|it| it.1)
}

/// The three bytes of profile and level.
#[derive(Clone, Copy)]
struct Id {
    idc: u8,
    iop: u8,
    level: u8,
}

/// The profile of three bytes: one of the table, or where that has none what the bytes say.
#[derive(PartialEq)]
enum Profile {
    Named(&'static str),
    Other(u8, u8),
}

fn byte(digits: &str, at: usize) -> u8 {
    u8::from_str_radix(&digits[2 * at..2 * at + 2], 16).expect("digits")
}

impl Id {
    fn of(it: &Format, rules: Rules) -> Self {
        let said = it.given(PROFILE_LEVEL_ID);
        let digits = said.unwrap_or(if rules.webrtc { "42e01f" } else { "42000a" });
        let [idc, iop, level] = [0, 1, 2].map(|at| byte(digits, at));
        Id { idc, iop, level }
    }

    /// Whether the standard has the profile and the level, which 9 names in profiles without a flag alone.
    fn is_known(self) -> bool {
        let is_named = self.level != 9 || !self.has_flag();
        PROFILE_IDCS.contains(&self.idc) && is_named && limits(self.level()).is_some()
    }

    /// Of Baseline, Main and Extended level 1b is level_idc 11 with constraint_set3_flag, which is of no profile.
    fn has_flag(self) -> bool {
        matches!(self.idc, 66 | 77 | 88)
    }

    fn level(self) -> f32 {
        match self.level {
            9 => 10.5,
            11 if self.has_flag() && self.iop & 16 != 0 => 10.5,
            level => level.into(),
        }
    }

    fn profile(self) -> Profile {
        let is_bit = |at: usize, c: u8| c == b'x' || (self.iop << at >> 7) == c - b'0';
        let is_of = |pattern: &[u8; 8]| pattern.iter().enumerate().all(|(at, c)| is_bit(at, *c));
        let mut rows = SUB_PROFILES.iter();
        match rows.find(|it| it.1 == self.idc && is_of(it.2)) {
            Some(row) => Profile::Named(row.0),
            None if self.has_flag() => Profile::Other(self.idc, self.iop & !16),
            None => Profile::Other(self.idc, self.iop),
        }
    }

    /// Whether an end takes this profile of an offer (by WebRTC's rules also the constrained one of its own).
    fn is_taken_by(self, own: Id, rules: Rules) -> bool {
        use Profile::Named;
        let pair = (self.profile(), own.profile());
        let is_constrained = matches!(pair, (Named("CB"), Named("B")) | (Named("CH"), Named("H")));
        pair.0 == pair.1 || rules.webrtc && is_constrained
    }
}

/// The highest level that an end receives.
fn highest(it: &Format, level: f32) -> f32 {
    let Some(digits) = it.given(MAX_RECV_LEVEL) else {
        return level;
    };
    let said = match (byte(digits, 1), byte(digits, 0) & 16) {
        (11, 16) | (9, 0) => 10.5,
        (other, _) => other.into(),
    };
    level.max(said)
}

/// Whether an end may say this of itself (section 8.1).
pub fn is_allowed(own: &Format, rules: Rules) -> bool {
    let id = Id::of(own, rules);
    let (level, highest) = (id.level(), highest(own, id.level()));
    let Some([mbps, fs, dpb, br, cpb]) = limits(highest) else {
        return false;
    };
    let reaches = |row: usize, least: u64| own.given_number(row).is_none_or(|it| it >= least);
    let smbps = own.given_number(MAX_MBPS).unwrap_or(mbps);
    let least = [
        (MAX_MBPS, mbps),
        (MAX_SMBPS, smbps),
        (MAX_FS, fs),
        (MAX_CPB, cpb),
        (MAX_BR, br),
    ];
    let has_dpb = own
        .given_number(MAX_DPB)
        .is_none_or(|it| it >= (dpb * 3).div_ceil(8));
    let told = [DEPTH, NEED, INIT_TIME, DON_DIFF].map(|row| own.gives(&[row]));
    let has_order = match own.number(MODE) {
        2 => told[0] && told[1] && rules.any_order,
        _ => !told.contains(&true),
    };
    let is_above = !own.gives(&[MAX_RECV_LEVEL]) || highest > level;
    let supported = own.given_number(SAR_SUPPORTED).filter(|it| *it != 255);
    let has_ratios = supported.is_none_or(|it| it <= own.number(SAR_UNDERSTOOD));
    let has_sets = own.number(IN_BAND) == 0 || own.number(USE_LEVEL_SETS) == 0;
    let is_one = id.is_known() && is_above && has_ratios && has_sets;
    is_one && least.iter().all(|it| reaches(it.0, it.1)) && has_dpb && has_order
}

/// Whether one end has what it takes to put in order what another sends in mode 2.
fn can_order(sender: &Format, receiver: &Format) -> bool {
    let room = receiver.number(ROOM);
    sender.gives(&[DEPTH, NEED]) && sender.number(NEED) <= room
}

/// The offered profile at our level.
fn id_text(theirs: Id, ours: Id) -> String {
    let is_1b = ours.level() == 10.5;
    let (iop, level) = match (theirs.has_flag(), is_1b) {
        (true, true) => (theirs.iop | 16, 11),
        (true, false) => (theirs.iop & !16, ours.level),
        (false, true) => (theirs.iop, 9),
        (false, false) => (theirs.iop, ours.level),
    };
    format!("{:02x}{iop:02x}{level:02x}", theirs.idc)
}

/// The answer to what is heard of an offer by what is heard of ours; its profile and level are written into the room where
/// neither end said them so.
pub fn answer<'a>(
    offer: &Format<'a>,
    own: &Format<'a>,
    rules: Rules,
    room: &'a mut String,
) -> Option<Format<'a>> {
    let (theirs, ours) = (Id::of(offer, rules), Id::of(own, rules));
    // Who receives puts in order what the other sends.
    let can_receive = rules.way == Way::Sends || can_order(offer, own);
    let can_send = rules.way == Way::Receives || can_order(own, offer);
    let is_interleaved = offer.number(MODE) == 2;
    let has_order = !is_interleaved || rules.any_order && can_receive && can_send;
    let keeps_level = !rules.multicast || ours.level() >= theirs.level();
    let is_one = theirs.is_taken_by(ours, rules) && offer.agrees(own, &[MODE]) && keeps_level;
    if !(theirs.is_known() && is_one && has_order) {
        return None;
    }
    // One level, the lower (in multicast the offer's), or where both ends allow it our own for what we receive.
    let both = !rules.multicast && offer.number(ASYMMETRY) == 1 && own.number(ASYMMETRY) == 1;
    let (low, high) = (theirs.level(), ours.level());
    let level = if both { high } else { low.min(high) };
    let sent = if both { highest(offer, low) } else { level };
    let mut answer = own.clone();
    answer.take_from(offer, &[PROFILE_LEVEL_ID, MODE]);
    if level != low {
        *room = id_text(theirs, ours);
        answer.put(PROFILE_LEVEL_ID, Some(room));
    }
    if !both {
        answer.take_away(&[ASYMMETRY]);
    }
    // Parameter sets are of the level that is sent and of the offered profile, unless the offer wants them in band.
    let is_untold = offer.number(IN_BAND) == 1 || theirs.profile() != ours.profile();
    if is_untold || sent != level || level != high {
        answer.take_away(&[SETS]);
    }
    if is_untold || sent == level || offer.number(USE_LEVEL_SETS) != 1 {
        answer.take_away(&[LEVEL_SETS]);
    }
    Some(answer)
}

/// The stream that one end sends and another receives.
pub fn stream(sender: &Format, receiver: &Format, rules: Rules) -> Stream {
    let levels = [sender, receiver].map(|it| Id::of(it, rules).level());
    let is_asymmetric = |it: &Format| it.number(ASYMMETRY) == 1;
    let level = if rules.way == Way::Both && is_asymmetric(sender) && is_asymmetric(receiver) {
        highest(receiver, levels[1])
    } else {
        levels[0].min(levels[1])
    };
    let is_own_level = level == levels[0];
    let uses_other_levels = receiver.number(USE_LEVEL_SETS) == 1;
    let sets = if receiver.number(IN_BAND) == 1 {
        "in band"
    } else if is_own_level && sender.gives(&[SETS]) {
        "told"
    } else if !is_own_level && uses_other_levels && sender.gives(&[LEVEL_SETS]) {
        "told of level"
    } else {
        "in band"
    };
    Stream {
        level: (2. * level) as u64,
        mode: Some(sender.number(MODE)),
        sets,
    }
}

/// Whether an end receives what is declared as it is.
pub fn accepts(declared: &Format, own: &Format, rules: Rules) -> bool {
    let (theirs, ours) = (Id::of(declared, rules), Id::of(own, rules));
    let is_interleaved = declared.number(MODE) == 2;
    let has_order = !is_interleaved || rules.any_order && can_order(declared, own);
    theirs.is_known()
        && is_allowed(own, rules)
        && theirs.is_taken_by(ours, rules)
        && declared.agrees(own, &[MODE])
        && theirs.level() <= highest(own, ours.level())
        && has_order
}
