//! Packets with their timestamps and markers, through a buffer that puts them in order and an assembler of access
//! units; by reference, and by value with the memory of access units given back.

use crate::input::Settings;
use crate::packets::LIMITS;
use crate::text::{told_after, units_behind_lengths};
use emupedestal::{
    AccessUnit, AccessUnitAssembler, CodecExtra, HeldPacket, NotHeldReason, PacketError, Pushed,
    Received, ReorderBuffer, RtpPacket,
};
use std::collections::HashMap;

/// A buffer and an assembler, and what the buffer must hold.
pub struct Assemblers {
    settings: Settings,
    run_limit: usize,
    unit_limit: usize,
    window: usize,
    buffer: ReorderBuffer,
    assembler: AccessUnitAssembler,
    /// The same by value.
    owned_buffer: ReorderBuffer,
    owned_assembler: AccessUnitAssembler,
    held: HashMap<u16, (u32, bool, Vec<u8>)>,
    /// The number that was given out last.
    last: Option<u16>,
}

impl Assemblers {
    /// `windows` chooses the window and the limit on an access unit.
    pub fn new(settings: Settings, run_limit: usize, windows: u8) -> Self {
        let (window, unit_limit) = (
            1 + u16::from(windows & 31),
            LIMITS[usize::from(windows >> 5)],
        );
        let mut assembler = AccessUnitAssembler::new(settings.codec, run_limit, unit_limit);
        assembler.with_donl(settings.donl);
        assembler.set_avc(settings.avc);
        Assemblers {
            settings,
            run_limit,
            unit_limit,
            window: usize::from(window),
            buffer: ReorderBuffer::new(window),
            owned_buffer: ReorderBuffer::new(window),
            owned_assembler: assembler.clone(),
            assembler,
            held: HashMap::new(),
            last: None,
        }
    }

    pub fn set_donl(&mut self, value: bool) {
        self.assembler.with_donl(value);
        self.owned_assembler.with_donl(value);
    }

    pub fn restart(&mut self) {
        self.buffer.restart();
        self.assembler.restart();
        self.owned_buffer.restart();
        self.owned_assembler.restart();
        self.held.clear();
        self.last = None;
        assert_eq!(
            (
                self.buffer.len(),
                self.assembler.run_len(),
                self.assembler.unit_len()
            ),
            (0, 0, 0)
        );
    }

    /// Gives a packet to the buffer, and what may go to the assembler.
    pub fn receive(&mut self, sequence: u16, timestamp: u32, marker: bool, payload: &[u8]) {
        let packet = RtpPacket {
            sequence,
            timestamp,
            marker,
            payload,
        };
        let pushed = self.buffer.push(&packet).expect("memory");
        assert_eq!(self.push_owned(&packet), pushed);
        match pushed {
            Pushed::Held => {
                let before = self
                    .held
                    .insert(sequence, (timestamp, marker, payload.to_vec()));
                assert_eq!(before, None, "each once");
            }
            Pushed::Twice => assert!(self.held.contains_key(&sequence)),
            Pushed::Late(behind) => assert!((1..=0x8000).contains(&behind)),
        }
        while let Some(packet) = self.buffer.pop() {
            let owned = self.owned_buffer.pop().expect("the same by value");
            self.take(packet, owned);
        }
        assert_eq!(self.buffer.len(), self.held.len());
        assert_eq!(self.owned_buffer.len(), self.held.len());
        assert!(
            self.buffer.len() < self.window,
            "fewer are held than the window has"
        );
    }

    /// Gives out all that is left.
    pub fn end(&mut self) {
        while let Some(packet) = self.buffer.pop_first() {
            let owned = self.owned_buffer.pop_first().expect("the same by value");
            self.take(packet, owned);
        }
        assert!(self.held.is_empty());
        let is_open = self.assembler.unit_len() > 0;
        let mut units = Vec::new();
        self.assembler.finish(&mut units).expect("memory");
        assert!(units.len() <= 1 && (!is_open || units.len() == 1));
        self.check(&units);
        let mut owned = Vec::new();
        self.owned_assembler.finish(&mut owned).expect("memory");
        assert_eq!(owned, units);
        assert!(
            units.iter().all(|unit| !unit.is_whole),
            "nothing tells that it is over"
        );
    }

    /// Gives a packet to the buffer that takes it by value; one that isn't held comes back as it was.
    fn push_owned(&mut self, packet: &RtpPacket<'_>) -> Pushed {
        let (sequence, timestamp, marker) = (packet.sequence, packet.timestamp, packet.marker);
        let owned = HeldPacket::new(sequence, timestamp, marker, packet.payload.to_vec());
        let Err(not_held) = self.owned_buffer.push_held(owned) else {
            return Pushed::Held;
        };
        assert_eq!(not_held.packet.packet(), *packet);
        match not_held.reason {
            NotHeldReason::Late(behind) => Pushed::Late(behind),
            NotHeldReason::Twice => Pushed::Twice,
            NotHeldReason::OutOfMemory => panic!("memory"),
        }
    }

    /// Takes a packet by value, whose access units are the same; and gives their memory back.
    fn take_owned(
        &mut self,
        packet: HeldPacket,
        answer: Result<Received, PacketError>,
        units: &[AccessUnit],
    ) {
        let mut owned = Vec::new();
        assert_eq!(
            self.owned_assembler.receive(&packet.packet(), &mut owned),
            answer
        );
        assert_eq!(owned, units);
        assert_eq!(self.owned_assembler, self.assembler);
        for unit in owned {
            self.owned_assembler.give_back(unit);
        }
        assert_eq!(self.owned_assembler, self.assembler);
    }

    fn take(&mut self, packet: HeldPacket, owned: HeldPacket) {
        let wanted = self
            .held
            .remove(&packet.sequence)
            .expect("one that is held");
        if let Some(last) = self.last.replace(packet.sequence) {
            assert!(
                (1..=0x8000).contains(&packet.sequence.wrapping_sub(last)),
                "in their order"
            );
        }
        assert_eq!(
            (packet.timestamp, packet.marker, packet.payload.clone()),
            wanted
        );
        assert_eq!(owned.packet(), packet.packet());

        let before = self.assembler.clone();
        let mut units = Vec::new();
        let answer = self.assembler.receive(&packet.packet(), &mut units);
        if answer.is_ok_and(|it| it.is_taken()) {
            assert!(units.len() <= 2);
            assert!(!packet.marker || self.assembler.unit_len() == 0);
        } else {
            assert!(
                units.is_empty() && self.assembler == before,
                "it changes nothing"
            );
        }
        assert!(self.assembler.run_len() <= self.run_limit);
        assert!(self.assembler.unit_len() <= self.unit_limit);
        self.check(&units);
        self.take_owned(owned, answer, &units);
    }

    /// The text of each is units, of which it tells.
    fn check(&self, units: &[AccessUnit]) {
        for unit in units {
            if self.settings.avc {
                let found = units_behind_lengths(&unit.bytes);
                assert_eq!(
                    unit.extra,
                    told_after(self.settings.codec, CodecExtra::None, &found)
                );
            } else {
                assert!(unit.bytes.is_empty() || unit.bytes.starts_with(&[0, 0, 0, 1]));
            }
        }
    }
}
