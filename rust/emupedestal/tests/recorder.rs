//! The example `recorder` over loopback, with a sender that drops packets, swaps others, and sends again what it is
//! asked for, by RFC 3550, 5.1 and RFC 4585, 6.2.1 and 6.3.1.

#[allow(dead_code)]
#[path = "../examples/recorder.rs"]
mod recorder;

use emupedestal::rtp::split_rtcp;
use emupedestal::{H264Packetizer, Packetizer};
use std::collections::BTreeMap;
use std::fs::{self, File};
use std::io::ErrorKind;
use std::net::{SocketAddr, UdpSocket};
use std::time::{Duration, Instant};
use std::{env, process, thread};

const SSRC: u32 = 0x0102_0304;
/// Behind the end of numbers soon.
const FIRST: u16 = 65_500;
/// Every tenth picture is a keyframe, and of this one a packet never comes. The last one is sent once a keyframe is asked
/// for.
const PICTURES: usize = 31;
const DAMAGED: usize = 25;

/// The length of the next datagram, unless none comes in a socket's time. The system may interrupt a call that
/// has one.
fn receive(socket: &UdpSocket, datagram: &mut [u8]) -> Option<usize> {
    loop {
        match socket.recv(datagram) {
            Err(error) if error.kind() == ErrorKind::Interrupted => {}
            came => return came.ok(),
        }
    }
}

/// A picture in Annex B form: with its sets and an IDR slice, or a slice of another picture.
fn picture(place: usize) -> Vec<u8> {
    let slice = |header: u8| [&[0, 0, 0, 1, header, 0x88], &[place as u8 + 1; 2000][..]].concat();
    match place % 10 {
        0 => {
            let sets = [0, 0, 0, 1, 0x67, 0x42, 0xc0, 0x1f, 0, 0, 0, 1, 0x68, 0xce];
            [&sets[..], &slice(0x65)].concat()
        }
        _ => slice(0x41),
    }
}

/// The packets of all pictures, the place of the one that never comes, and that of the first of the last picture.
fn packets() -> (Vec<Vec<u8>>, usize, usize) {
    let mut packetizer = H264Packetizer::default();
    let (mut packets, mut never, mut last) = (Vec::new(), 0, 0);
    for place in 0..PICTURES {
        last = packets.len();
        let payloads = packetizer.packetize(500, &picture(place)).expect("memory");
        let count = payloads.len();
        for (i, payload) in payloads.into_iter().enumerate() {
            if (place, i) == (DAMAGED, 2) {
                never = packets.len();
            }
            let mut packet = vec![0x80, 96 | u8::from(i + 1 == count) << 7];
            packet.extend(FIRST.wrapping_add(packets.len() as u16).to_be_bytes());
            packet.extend((place as u32 * 3600).to_be_bytes());
            packet.extend(SSRC.to_be_bytes());
            packet.extend(payload);
            packets.push(packet);
        }
    }
    (packets, never, last)
}

struct Sender {
    socket: UdpSocket,
    to: SocketAddr,
    packets: Vec<Vec<u8>>,
    never: usize,
    last: usize,
    /// How often each packet was asked for.
    asked: BTreeMap<usize, u32>,
    keyframes_asked: u32,
}

impl Sender {
    fn send(&self, place: usize) {
        if place != self.never {
            self.socket
                .send_to(&self.packets[place], self.to)
                .expect("loopback");
        }
    }

    /// Sends all, but every seventh packet from the fifth on, and every eleventh behind the next one.
    fn send_all(&mut self) {
        let mut places: Vec<usize> = (0..self.last).collect();
        (20..places.len() - 1)
            .step_by(11)
            .for_each(|i| places.swap(i, i + 1));
        for place in places {
            if !is_dropped(place, self.last) {
                self.send(place);
            }
            self.answer(Duration::from_millis(1));
        }
    }

    /// Answers what is asked for, until for so long nothing is.
    fn answer(&mut self, silence: Duration) {
        self.socket.set_read_timeout(Some(silence)).expect("a time");
        let mut buffer = [0; 2048];
        while let Some(len) = receive(&self.socket, &mut buffer) {
            let mut rest = &buffer[..len];
            while let Some((message, behind)) = split_rtcp(rest) {
                assert_eq!(
                    (message[0], &message[8..12]),
                    (0x81, &SSRC.to_be_bytes()[..])
                );
                match message[1] {
                    201 => {}
                    205 => message[12..].chunks(4).for_each(|it| self.send_again(it)),
                    206 => {
                        self.keyframes_asked += 1;
                        (self.last..self.packets.len()).for_each(|it| self.send(it));
                    }
                    other => panic!("a message of type {other}"),
                }
                rest = behind;
            }
            assert!(rest.is_empty(), "whole messages");
        }
    }

    /// Sends a packet again, every second one as RTX has it (RFC 4588, 4).
    fn resend(&self, place: usize) {
        if place % 2 == 0 {
            return self.send(place);
        }
        let mut again = self.packets[place].clone();
        let original = [again[2], again[3]];
        again[1] = again[1] & 0x80 | 97;
        again[2..4].copy_from_slice(&(place as u16).to_be_bytes());
        again[8] ^= 1;
        again.splice(12..12, original);
        if place != self.never {
            self.socket.send_to(&again, self.to).expect("loopback");
        }
    }

    /// Sends packets again: one, and those whose bits are set behind it. Every third is lost again the first time.
    fn send_again(&mut self, lost: &[u8]) {
        let first = u16::from_be_bytes([lost[0], lost[1]]);
        let bits = u16::from_be_bytes([lost[2], lost[3]]);
        let more = (0..16).filter(|bit| bits >> bit & 1 > 0).map(|bit| bit + 1);
        for ahead in [0].into_iter().chain(more) {
            let place = usize::from(first.wrapping_add(ahead).wrapping_sub(FIRST));
            let count = self.asked.entry(place).or_default();
            *count += 1;
            if *count > 1 || place % 3 > 0 {
                self.resend(place);
            }
        }
    }
}

/// Of the last packets none is: nobody would notice.
fn is_dropped(place: usize, count: usize) -> bool {
    place % 7 == 4 && place + 7 < count
}

#[test]
fn a_stream_with_losses() {
    let socket = UdpSocket::bind("127.0.0.1:0").expect("a port");
    let to = socket.local_addr().expect("an address");
    let path = env::temp_dir().join(format!("recorder-{}.h264", process::id()));
    let file = File::create(&path).expect("a file");
    let recording = thread::spawn(move || recorder::record(socket, file));
    let (packets, never, last) = packets();
    let mut sender = Sender {
        socket: UdpSocket::bind("127.0.0.1:0").expect("a port"),
        to,
        packets,
        never,
        last,
        asked: BTreeMap::new(),
        keyframes_asked: 0,
    };
    let begin = Instant::now();
    sender.send_all();
    // Longer than a packet is waited for.
    sender.answer(Duration::from_millis(1300));
    let bye = [&[0x81, 203, 0, 1][..], &SSRC.to_be_bytes()].concat();
    sender.socket.send_to(&bye, to).expect("loopback");
    recording.join().expect("no panic").expect("no failure");
    let recorded = fs::read(&path).expect("a file that was written");
    fs::remove_file(&path).expect("its file");
    // From the first keyframe on, and where a packet is missing again from the next one on.
    let pictures = (0..DAMAGED).chain(PICTURES - 1..PICTURES);
    let wanted: Vec<u8> = pictures.flat_map(picture).collect();
    assert!(
        recorded == wanted,
        "{} bytes, {:?}",
        recorded.len(),
        begin.elapsed()
    );
    let count = sender.last;
    for place in (0..count).filter(|place| is_dropped(*place, count) || *place == never) {
        let least = if place % 3 == 0 { 2 } else { 1 };
        assert!(
            sender.asked.get(&place) >= Some(&least),
            "{place}: {:?}",
            sender.asked
        );
    }
    assert_eq!(sender.keyframes_asked, 1);
}
