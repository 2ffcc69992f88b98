//! Drawn calls of packetizers, depacketizers and what stands around them, and what both sides answer. The other side
//! has handles of its own, which are given what the crate is given.

#[cfg(feature = "library")]
use crate::c;
use crate::log::{Log, Outcome, became, code, number, outcome, shows, told};
use crate::making::Making;
use crate::{assembler, network};
use emupedestal::{
    Codec, CodecDepacketizer, CodecExtra, CodecPacketizer, Depacketizer, H264Depacketizer,
    H264Packetizer, H264ProfileLevel, H265Depacketizer, H265PACIPacket, H265Packetizer,
    H265Payload, H265ProfileTierLevel, H266Depacketizer, H266Packetizer, H266ProfileTierLevel,
    PacketError, Packetizer, Packets, PacketsSize, SequencedDepacketizer, detect_h264_keyframe,
    detect_h264_nalu, detect_h265_keyframe, detect_h266_keyframe, set_lowest_header, take_all,
    units,
};

/// What the other side does, where there is one: without it the crate's answers are summed alone.
macro_rules! beside {
    ($($it:tt)*) => {
        #[cfg(feature = "library")]
        {
            $($it)*
        }
    };
}
pub(crate) use beside;

type Made = Result<Vec<Vec<u8>>, PacketError>;

/// What all packetizers can do, and all depacketizers.
trait Sends: Packetizer {
    fn make_into(&mut self, mtu: usize, b: &[u8], to: &mut Packets) -> Result<(), PacketError>;
    /// The code, how many packets there would be, and how many bytes.
    fn size(&self, mtu: usize, b: &[u8], headroom: usize) -> (u32, usize, usize);
    fn unit(&mut self, mtu: usize, b: &[u8]) -> Made;
    fn unit_into(&mut self, mtu: usize, b: &[u8], to: &mut Packets) -> Result<(), PacketError>;
    fn donl(&mut self, on: bool);
    fn largest(&mut self, n: u16);
    /// Whether sets go under the lowest header of theirs.
    fn lowest(&mut self, on: bool);
    fn copy(&self) -> Box<dyn Sends>;
}

trait Receives: Depacketizer {
    fn avc(&mut self, on: bool);
    fn donl(&mut self, on: bool);
    fn give_up(&mut self);
    fn copy(&self) -> Box<dyn Receives>;
    fn shows(&self) -> Option<&H265Payload>;
    /// Whether a copy is the same, and the same once it has taken a packet.
    fn is_same_as_copy(&self, packet: &[u8]) -> [bool; 2];
}

macro_rules! ends {
    ($sends:ident, $receives:ident, $has:tt, $lowest:tt, $shows:expr) => {
        impl Sends for $sends {
            fn make_into(&mut self, mtu: usize, b: &[u8], to: &mut Packets) -> Result<(), PacketError> {
                self.packetize_into(mtu, b, to)
            }
            fn size(&self, mtu: usize, b: &[u8], headroom: usize) -> (u32, usize, usize) {
                match self.packets_size(mtu, b, headroom) {
                    Ok(PacketsSize { packets, bytes }) => (0, packets, bytes),
                    Err(error) => (code(error).0, 0, 0),
                }
            }
            fn unit(&mut self, mtu: usize, b: &[u8]) -> Made {
                self.packetize_unit(mtu, b)
            }
            fn unit_into(&mut self, mtu: usize, b: &[u8], to: &mut Packets) -> Result<(), PacketError> {
                self.packetize_unit_into(mtu, b, to)
            }
            fn donl(&mut self, _on: bool) {
                ends!($has { self.with_donl(_on) });
            }
            fn largest(&mut self, _n: u16) {
                ends!($has { self.with_max_packet_size(_n) });
            }
            fn lowest(&mut self, _on: bool) {
                ends!($lowest { self.with_lowest_header(_on) });
            }
            fn copy(&self) -> Box<dyn Sends> {
                Box::new(self.clone())
            }
        }
        impl Receives for $receives {
            fn avc(&mut self, on: bool) {
                self.is_avc = on;
            }
            fn donl(&mut self, _on: bool) {
                ends!($has { self.with_donl(_on) });
            }
            fn give_up(&mut self) {
                self.give_up_run();
            }
            fn copy(&self) -> Box<dyn Receives> {
                Box::new(self.clone())
            }
            fn shows(&self) -> Option<&H265Payload> {
                let shows: fn(&Self) -> Option<&H265Payload> = $shows;
                shows(self)
            }
            fn is_same_as_copy(&self, packet: &[u8]) -> [bool; 2] {
                let mut copy = self.clone();
                let same = *self == copy;
                let _ = copy.depacketize(packet, &mut Vec::new(), &mut CodecExtra::None);
                [same, *self == copy]
            }
        }
    };
    (yes { $call:expr }) => { $call };
    (no { $call:expr }) => {};
}
ends!(H264Packetizer, H264Depacketizer, no, no, |_| None);
ends!(H265Packetizer, H265Depacketizer, yes, yes, |it| Some(
    it.payload()
));
ends!(H266Packetizer, H266Depacketizer, yes, no, |_| None);

/// The code and the packets of a call.
fn packets_of(made: Made) -> (u32, Vec<Vec<u8>>) {
    made.map_or_else(|error| (code(error).0, Vec::new()), |packets| (0, packets))
}

/// The same of packets in one buffer, and where each ends.
fn listed(made: Result<(), PacketError>, packets: &Packets) -> (u32, Vec<&[u8]>, &[usize]) {
    (outcome(made).0, packets.iter().collect(), packets.ends())
}

/// What a depacketizer answered and has written so far, and what is told.
type Taken<'a> = (Outcome, &'a [u8], u8);

/// All that a case has: what the crate answered, and the other side.
pub fn all(seed: u64, case: u64) -> (Log, Log) {
    let (mut ours, mut theirs) = (Log::default(), Log::default());
    run(seed, case, &mut ours, &mut theirs);
    assembler::assembled(seed, case, &mut ours, &mut theirs);
    if case % 20 == 0 {
        assembler::reordered(seed, case, &mut ours, &mut theirs);
    }
    network::access_units(seed, case, &mut ours, &mut theirs);
    network::formats(seed, case, &mut ours, &mut theirs);
    (ours, theirs)
}

/// What both sides have of a case. The other side's own handles have names that begin with `c`.
struct Run<'a> {
    m: Making,
    codec: Codec,
    id: u32,
    has_donl: bool,
    avc: bool,
    lowest: bool,
    headroom: usize,
    sends: Box<dyn Sends>,
    receives: Box<dyn Receives>,
    sequenced: SequencedDepacketizer,
    any: CodecDepacketizer,
    any_sends: CodecPacketizer,
    packets: Packets,
    queue: Vec<Vec<u8>>,
    sequence: u16,
    out: Vec<u8>,
    extra: CodecExtra,
    seq_out: Vec<u8>,
    seq_extra: CodecExtra,
    any_out: Vec<u8>,
    any_extra: CodecExtra,
    ours: &'a mut Log,
    theirs: &'a mut Log,
    #[cfg(feature = "library")]
    c_sends: c::End,
    #[cfg(feature = "library")]
    c_any_sends: c::End,
    #[cfg(feature = "library")]
    c_receives: c::End,
    #[cfg(feature = "library")]
    c_any: c::End,
    #[cfg(feature = "library")]
    c_sequenced: c::End,
    #[cfg(feature = "library")]
    c_out: Vec<u8>,
    #[cfg(feature = "library")]
    c_seq_out: Vec<u8>,
    #[cfg(feature = "library")]
    c_any_out: Vec<u8>,
    #[cfg(feature = "library")]
    c_extra: u8,
    #[cfg(feature = "library")]
    c_seq_extra: u8,
    #[cfg(feature = "library")]
    c_any_extra: u8,
}

impl<'a> Run<'a> {
    fn new(seed: u64, case: u64, ours: &'a mut Log, theirs: &'a mut Log) -> Self {
        let mut m = Making::new(seed, case);
        let codec = [Codec::H264, Codec::H265, Codec::H266][m.codec];
        let (sends, receives) = ends_of(codec);
        let run_limit = m.random.of(&[0, 1, 3, 8, 20, 100, 5000, usize::MAX]);
        let has_donl = m.has_donl;
        let lowest = m.codec == 1 && m.random.one_in(2);
        let headroom = m.random.of(&[0, 0, 12, 28]);
        let id = number(codec);
        let mut it = Run {
            codec,
            id,
            has_donl,
            avc: false,
            lowest,
            headroom,
            sends,
            receives,
            sequenced: SequencedDepacketizer::new(codec, run_limit),
            any: CodecDepacketizer::new(codec),
            any_sends: CodecPacketizer::new(codec),
            packets: Packets::with_headroom(headroom),
            queue: Vec::new(),
            sequence: m.random.word() as u16,
            out: vec![0, 0, 1],
            extra: CodecExtra::None,
            seq_out: Vec::new(),
            seq_extra: CodecExtra::None,
            any_out: Vec::new(),
            any_extra: CodecExtra::None,
            ours,
            theirs,
            #[cfg(feature = "library")]
            c_sends: c::packetizer(id, false),
            #[cfg(feature = "library")]
            c_any_sends: c::packetizer(id, has_donl),
            #[cfg(feature = "library")]
            c_receives: c::depacketizer(id, false),
            #[cfg(feature = "library")]
            c_any: c::depacketizer(id, false),
            #[cfg(feature = "library")]
            c_sequenced: c::receiver(id, has_donl, false, run_limit),
            #[cfg(feature = "library")]
            c_out: vec![0, 0, 1],
            #[cfg(feature = "library")]
            c_seq_out: Vec::new(),
            #[cfg(feature = "library")]
            c_any_out: Vec::new(),
            #[cfg(feature = "library")]
            c_extra: 0,
            #[cfg(feature = "library")]
            c_seq_extra: 0,
            #[cfg(feature = "library")]
            c_any_extra: 0,
            m,
        };
        it.begin();
        it
    }

    /// The settings that new ends haven't.
    fn begin(&mut self) {
        self.sends.lowest(self.lowest);
        self.sends.donl(self.has_donl);
        self.receives.donl(self.has_donl);
        self.sequenced.with_donl(self.has_donl);
        if self.has_donl {
            self.any_sends.configure_for(Some(1));
        }
        beside! {
            self.c_sends.send_numbers(self.has_donl);
            self.c_sends.lowest_header(self.lowest);
            self.c_receives.take_numbers(self.has_donl);
        }
    }

    /// A call of some kind.
    fn step(&mut self) {
        match self.m.random.below(24) {
            0..6 => self.packetize(),
            6 | 7 => self.packetize_into(),
            8 => self.packetize_unit(),
            9..15 => self.take_packets(),
            15 => self.take_many(),
            16 => self.set_largest(),
            17 => self.set_donl(),
            18 => self.set_avc(),
            19 => self.give_up(),
            20 => self.copy(),
            21 => self.make_paci(),
            _ => self.ask_numbers(),
        }
    }

    /// A payload in a list, also by one of any codec, and its units.
    fn packetize(&mut self) {
        let (limit, payload) = self.m.payload();
        let made = packets_of(self.sends.packetize(limit, &payload));
        self.ours.say("packetize", &made);
        let found: Vec<&[u8]> = units(self.codec, &payload).collect();
        let is_plain = |unit: &&[u8]| self.codec.is_plain_unit(unit);
        self.ours
            .say("plain", found.iter().map(is_plain).collect::<Vec<bool>>());
        self.ours.say("units", found);
        self.ours
            .say("plain payload", self.codec.is_plain_unit(&payload));
        self.ours
            .say("any", packets_of(self.any_sends.packetize(limit, &payload)));
        beside! {
            self.theirs.say("packetize", in_vecs(self.c_sends.packets(false, limit, &payload, 0)));
            let found = c::units(self.id, &payload);
            self.theirs.say("plain", found.iter().map(|unit| c::is_plain(self.id, unit)).collect::<Vec<bool>>());
            self.theirs.say("units", found);
            self.theirs.say("plain payload", c::is_plain(self.id, &payload));
            self.theirs.say("any", in_vecs(self.c_any_sends.packets(false, limit, &payload, 0)));
        }
        self.queue.extend(made.1.into_iter().take(40));
    }

    /// A payload in a buffer.
    fn packetize_into(&mut self) {
        let (limit, payload) = self.m.payload();
        self.ours
            .say("size", self.sends.size(limit, &payload, self.headroom));
        let made = self.sends.make_into(limit, &payload, &mut self.packets);
        self.ours.say("into", listed(made, &self.packets));
        beside! {
            self.theirs.say("size", self.c_sends.packets_size(limit, &payload, self.headroom));
            let (code, made, ends) = self.c_sends.packets(false, limit, &payload, self.headroom);
            self.theirs.say("into", (code, made, ends));
        }
        self.queue
            .extend(self.packets.iter().take(40).map(<[u8]>::to_vec));
    }

    /// A unit as it is.
    fn packetize_unit(&mut self) {
        let unit = self.m.unit();
        let limit = self.m.limit(std::slice::from_ref(&unit));
        let made = packets_of(self.sends.unit(limit, &unit));
        self.ours.say("unit", &made);
        let into = self.sends.unit_into(limit, &unit, &mut self.packets);
        self.ours.say("unit into", listed(into, &self.packets));
        beside! {
            self.theirs.say("unit", in_vecs(self.c_sends.packets(true, limit, &unit, 0)));
            self.theirs.say("unit into", self.c_sends.packets(true, limit, &unit, self.headroom));
        }
        self.queue.extend(made.1.into_iter().take(40));
    }

    /// The packets that were made, and some of strangers, one by one to all that take packets.
    fn take_packets(&mut self) {
        let mut given = std::mem::take(&mut self.queue);
        given.extend((0..self.m.random.below(4)).map(|_| self.m.packet()));
        for packet in given {
            let packet = self.m.spoiled(packet);
            self.take(&packet);
            self.receive(&packet);
            self.take_any(&packet);
            self.forget_long();
        }
    }

    /// A packet by itself, and what can be told of it.
    fn take(&mut self, packet: &[u8]) {
        let taken = outcome(
            self.receives
                .depacketize(packet, &mut self.out, &mut self.extra),
        );
        let taken: Taken = (taken, &self.out, told(self.codec, self.extra));
        self.ours.say("take", taken);
        let is_shown = self.m.random.one_in(3);
        if is_shown {
            self.ours.say("shown", self.receives.shows().map(shows));
        }
        let marker = self.m.random.one_in(2);
        let target = self.m.random.below(32) as u8;
        let (head, tail) = (
            self.receives.is_partition_head(packet),
            self.receives.is_partition_tail(marker, packet),
        );
        let mut lowered = packet.to_vec();
        set_lowest_header(self.codec, self.has_donl, &mut lowered);
        self.ours.say("lowest", lowered);
        let keys = [
            detect_h264_keyframe(packet),
            detect_h265_keyframe(packet),
            detect_h266_keyframe(packet),
        ];
        self.ours
            .say("look", (head, tail, keys, detect_h264_nalu(packet, target)));
        beside! {
            let taken = self.c_receives.depacketize(self.avc, packet, &mut self.c_out, &mut self.c_extra);
            self.theirs.say("take", (taken, &self.c_out, self.c_extra));
            if is_shown {
                self.theirs.say("shown", self.c_receives.shown());
            }
            self.theirs.say("lowest", c::with_lowest_header(self.id, self.has_donl, packet.to_vec()));
            let keys = [264, 265, 266].map(|id| c::detect(id, packet));
            let (head, tail) = (c::is_head(self.id, packet), c::is_tail(self.id, marker, packet));
            self.theirs.say("look", (head, tail, keys, c::detect_type(packet, target)));
        }
    }

    /// A packet with its number.
    fn receive(&mut self, packet: &[u8]) {
        self.sequence = self.m.next_number(self.sequence);
        // A number that came and bears nothing.
        if self.m.random.one_in(16) {
            self.ours
                .say("skip", became(self.sequenced.skip(self.sequence)));
            beside! { self.theirs.say("skip", self.c_sequenced.skip(self.sequence)); }
            self.sequence = self.m.next_number(self.sequence);
        }
        let received = self.sequenced.receive(
            self.sequence,
            packet,
            &mut self.seq_out,
            &mut self.seq_extra,
        );
        self.ours.say("receive", received.map(became).map_err(code));
        self.ours.say(
            "received",
            (
                &self.seq_out,
                told(self.codec, self.seq_extra),
                self.sequenced.run_len(),
            ),
        );
        let (is_shown, is_anew) = (self.m.random.one_in(4), self.m.random.one_in(40));
        if is_shown {
            self.ours.say("shown", self.sequenced.shown().map(shows));
        }
        if is_anew {
            self.sequenced.restart();
        }
        beside! {
            let received = self.c_sequenced.receive(self.sequence, packet, &mut self.c_seq_out, &mut self.c_seq_extra);
            self.theirs.say("receive", received);
            self.theirs.say("received", (&self.c_seq_out, self.c_seq_extra, self.c_sequenced.run_len()));
            if is_shown {
                self.theirs.say("shown", self.c_sequenced.shown());
            }
            if is_anew {
                self.c_sequenced.restart();
            }
        }
    }

    /// A packet by one of any codec.
    fn take_any(&mut self, packet: &[u8]) {
        let taken = outcome(
            self.any
                .depacketize(packet, &mut self.any_out, &mut self.any_extra),
        );
        let taken: Taken = (taken, &self.any_out, told(self.codec, self.any_extra));
        self.ours.say("any", taken);
        beside! {
            let taken = self.c_any.depacketize(false, packet, &mut self.c_any_out, &mut self.c_any_extra);
            self.theirs.say("any", (taken, &self.c_any_out, self.c_any_extra));
        }
    }

    /// What was written goes where it is long.
    fn forget_long(&mut self) {
        if self.out.len() > 4000 {
            (self.out, self.extra) = (vec![0, 0, 1], CodecExtra::None);
            (self.seq_out, self.seq_extra) = (Vec::new(), CodecExtra::None);
            (self.any_out, self.any_extra) = (Vec::new(), CodecExtra::None);
            beside! {
                (self.c_out, self.c_seq_out, self.c_any_out) = (vec![0, 0, 1], Vec::new(), Vec::new());
                (self.c_extra, self.c_seq_extra, self.c_any_extra) = (0, 0, 0);
            }
        }
    }

    /// Many packets in one call.
    fn take_many(&mut self) {
        let many: Vec<Vec<u8>> = (0..self.m.random.below(8))
            .map(|_| self.m.packet())
            .collect();
        let all = take_all(&mut self.any, &many, &mut self.any_out, &mut self.any_extra);
        self.ours.say(
            "all",
            all.into_iter().map(outcome).collect::<Vec<Outcome>>(),
        );
        self.ours
            .say("any out", (&self.any_out, told(self.codec, self.any_extra)));
        beside! {
            let take = |packet: &Vec<u8>| self.c_any.depacketize(false, packet, &mut self.c_any_out, &mut self.c_any_extra);
            self.theirs.say("all", many.iter().map(take).collect::<Vec<Outcome>>());
            self.theirs.say("any out", (&self.c_any_out, self.c_any_extra));
        }
    }

    /// Another largest packet.
    fn set_largest(&mut self) {
        let largest = self.m.largest();
        self.sends.largest(largest);
        self.any_sends.with_max_packet_size(largest);
        beside! {
            self.c_sends.max_size(largest);
            self.c_any_sends.max_size(largest);
        }
    }

    /// Numbers on or off.
    fn set_donl(&mut self) {
        self.has_donl = self.m.codec != 0 && self.m.random.one_in(2);
        self.m.has_donl = self.has_donl;
        self.sends.donl(self.has_donl);
        self.receives.donl(self.has_donl);
        self.sequenced.with_donl(self.has_donl);
        beside! {
            self.c_sends.send_numbers(self.has_donl);
            self.c_receives.take_numbers(self.has_donl);
            self.c_sequenced.receive_numbers(self.has_donl);
        }
    }

    /// Start codes or lengths.
    fn set_avc(&mut self) {
        self.avc = self.m.random.one_in(2);
        self.receives.avc(self.avc);
        self.sequenced.set_avc(self.avc);
        self.ours.say("avc", self.sequenced.is_avc());
        beside! {
            self.c_sequenced.receive_avc(self.avc);
            self.theirs.say("avc", self.avc);
        }
    }

    /// Another header of sets, and open units given up.
    fn give_up(&mut self) {
        self.lowest = self.m.codec == 1 && self.m.random.one_in(2);
        self.sends.lowest(self.lowest);
        self.receives.give_up();
        self.any.give_up_run();
        beside! {
            self.c_sends.lowest_header(self.lowest);
            self.c_receives.give_up_run();
            self.c_any.give_up_run();
        }
    }

    /// Copies in the place of all.
    fn copy(&mut self) {
        self.sends = self.sends.copy();
        self.receives = self.receives.copy();
        self.sequenced = self.sequenced.clone();
        let packet = self.m.packet();
        self.ours
            .say("same", self.receives.is_same_as_copy(&packet));
        beside! {
            self.c_sends = self.c_sends.packetizer_again();
            self.c_receives = self.c_receives.depacketizer_again();
            self.c_sequenced = self.c_sequenced.receiver_again();
            let mut copy = self.c_receives.depacketizer_again();
            let same = self.c_receives.is_same(&copy);
            copy.depacketize(self.avc, &packet, &mut Vec::new(), &mut 0);
            self.theirs.say("same", [same, self.c_receives.is_same(&copy)]);
        }
    }

    /// A PACI packet.
    fn make_paci(&mut self) {
        let (unit, extension) = (self.m.unit(), self.m.bytes(34));
        let packed = H265PACIPacket::packetize(&unit, &extension, &mut vec![7, 8]);
        self.ours.say("paci", packed.map_err(|error| code(error).0));
        beside! { self.theirs.say("paci", c::paci(&unit, &extension)); }
    }

    /// Profiles, levels and a size.
    fn ask_numbers(&mut self) {
        let word = self.m.random.word() & 0xff_ffff;
        let it = H264ProfileLevel::try_from(word);
        self.ours.say(
            "h264",
            it.ok()
                .map(|it| (it.profile() as u8, it.level().ordinal() as u8)),
        );
        let three = (
            self.m.random.of(&[1, 2, 17, 33, 65]),
            self.m.random.of(&[0, 1, 2]),
            self.m.random.byte(),
        );
        let known = [
            H265ProfileTierLevel::from(three).level_id(),
            H266ProfileTierLevel::from(three).level_id(),
        ];
        self.ours.say("levels", known);
        let len = self.m.random.below(100_000);
        self.ours.say("hint", self.receives.out_size_hint(len));
        beside! {
            self.theirs.say("h264", c::h264_profile(word));
            let [five, six] = c::is_known(three);
            // What a format that says nothing has: levels 3.1 and 4.
            self.theirs.say("levels", [if five { three.2 } else { 93 }, if six { three.2 } else { 51 }]);
            self.theirs.say("hint", Some(c::size_hint(len)));
        }
    }
}

/// The ends of a codec.
fn ends_of(codec: Codec) -> (Box<dyn Sends>, Box<dyn Receives>) {
    match codec {
        Codec::H264 => (
            Box::<H264Packetizer>::default(),
            Box::<H264Depacketizer>::default(),
        ),
        Codec::H265 => (
            Box::<H265Packetizer>::default(),
            Box::<H265Depacketizer>::default(),
        ),
        Codec::H266 => (
            Box::<H266Packetizer>::default(),
            Box::<H266Depacketizer>::default(),
        ),
    }
}

fn run(seed: u64, case: u64, ours: &mut Log, theirs: &mut Log) {
    let mut it = Run::new(seed, case, ours, theirs);
    for _ in 0..it.m.random.between(4, 24) {
        it.step();
    }
    it.ours.say("out", (&it.out, &it.any_out));
    beside! { it.theirs.say("out", (&it.c_out, &it.c_any_out)); }
    let _ = (it.theirs, it.id);
}

/// Packets of the library.
#[cfg(feature = "library")]
fn in_vecs(made: (u32, Vec<Vec<u8>>, Vec<usize>)) -> (u32, Vec<Vec<u8>>) {
    let (code, packets, _) = made;
    (code, packets)
}

/// All numbers of profiles, tiers and levels.
pub fn numbers() {
    beside! {
        for id in 0..1 << 24 {
            let it = H264ProfileLevel::try_from(id).ok();
            assert_eq!(it.map(|it| (it.profile() as u8, it.level().ordinal() as u8)), c::h264_profile(id), "{id:x}");
        }
        for id in 0..=u16::MAX {
            let [a, b] = id.to_be_bytes();
            for three in [0, 1, 2, 255].map(|tier| (a, tier, b)) {
                let five = H265ProfileTierLevel::new(three.0, three.1, three.2);
                let six = H266ProfileTierLevel::new(three.0, three.1, three.2);
                let five = five.map(|it| (it.profile_id(), it.tier_flag(), it.level_id()));
                let six = six.map(|it| (it.profile_id(), it.tier_flag(), it.level_id()));
                assert_eq!([five, six], c::is_known(three).map(|is_known| is_known.then_some(three)));
            }
        }
    }
}
