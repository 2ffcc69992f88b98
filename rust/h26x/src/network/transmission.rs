//! A live stream that is sent over UDP, in its own time, with RTCP beside it.

use crate::captures::frames::{HEADROOM, RECORD, RECORD_LEN};
use crate::captures::rtp;
use crate::commands::arguments::Send;
use crate::errors::Failure;
use crate::network::feedback::name;
use crate::network::rtcp::{self, Compound, Read};
use crate::network::sockets::{Sockets, scoped};
use std::collections::VecDeque;
use std::net::SocketAddr;
use std::path::PathBuf;
use std::thread::sleep;
use std::time::{Duration, Instant, SystemTime, UNIX_EPOCH};

/// Where a datagram begins behind the headers of a record.
const DATAGRAM: usize = HEADROOM - rtp::HEADER;
/// Seconds from the beginning of NTP's time to that of Unix (RFC 5905, figure 4).
const NTP: u64 = 2_208_988_800;
/// Between reports (RFC 3550, 6.2).
const PAUSE: Duration = Duration::from_secs(5);
/// A shorter pause between packets isn't slept through.
const SHORTEST: Duration = Duration::from_micros(500);
/// So many packets can be asked for again.
const KEPT: usize = 1024;

pub struct Transmission {
    sockets: Sockets,
    to: SocketAddr,
    path: PathBuf,
    ssrc: u32,
    /// How long a picture takes.
    interval: Duration,
    begin: Option<Instant>,
    pictures: u32,
    kept: VecDeque<Vec<u8>>,
    report: Option<Instant>,
    packets: u32,
    bytes: u32,
    /// Of datagrams.
    sent: u64,
    again: u64,
    keyframes_asked: u64,
}

impl Transmission {
    pub fn new(asked: &Send, to: SocketAddr) -> Result<Self, Failure> {
        let path = asked.output.clone();
        let interface = asked.interface.as_deref();
        let failed = |error| Failure::of(&path, format!("nothing can be sent there: {error}"));
        let sockets = Sockets::to_send(to, interface).map_err(failed)?;
        let to = scoped(to, interface).map_err(failed)?;
        let (pictures, seconds) = asked.frames;
        Ok(Transmission {
            sockets,
            to,
            path,
            ssrc: asked.ssrc,
            interval: Duration::from_secs_f64(f64::from(seconds) / f64::from(pictures)),
            begin: None,
            pictures: 0,
            kept: VecDeque::new(),
            report: None,
            packets: 0,
            bytes: 0,
            sent: 0,
            again: 0,
            keyframes_asked: 0,
        })
    }

    /// Sends the packets of a picture, which stand in records of a capture, within half of its time.
    pub fn send(&mut self, records: &[u8]) -> Result<(), Failure> {
        let begin = *self.begin.get_or_insert_with(Instant::now);
        let picture = begin + self.interval.saturating_mul(self.pictures);
        self.pictures = self.pictures.saturating_add(1);
        let datagrams = datagrams(records);
        let step = self.interval / 2 / datagrams.len().max(1) as u32;
        for (at, datagram) in (0_u32..).zip(datagrams) {
            self.wait(picture + step * at);
            self.hear();
            self.send_one(datagram)?;
            self.keep(datagram);
        }
        Ok(())
    }

    /// Waits for a time, and hears meanwhile what is asked for.
    fn wait(&mut self, until: Instant) {
        loop {
            let left = until.saturating_duration_since(Instant::now());
            if left < SHORTEST {
                return;
            }
            sleep(left.min(Duration::from_millis(10)));
            self.hear();
        }
    }

    fn send_one(&mut self, datagram: &[u8]) -> Result<(), Failure> {
        let sent = self.sockets.rtp.send_to(datagram, self.to);
        sent.map_err(|error| Failure::of(&self.path, format!("it can't be sent: {error}")))?;
        self.sent += datagram.len() as u64;
        self.packets = self.packets.wrapping_add(1);
        self.bytes = self
            .bytes
            .wrapping_add((datagram.len() - rtp::HEADER) as u32);
        let now = Instant::now();
        if self.report.is_none_or(|it| now >= it + PAUSE) {
            self.report = Some(now);
            self.say(datagram, false);
        }
        Ok(())
    }

    fn keep(&mut self, datagram: &[u8]) {
        let mut kept = match self.kept.len() < KEPT {
            true => Vec::new(),
            false => self.kept.pop_front().unwrap_or_default(),
        };
        kept.clear();
        kept.extend_from_slice(datagram);
        self.kept.push_back(kept);
    }

    /// Sends a report, of the time of this packet; with the last words where it ends.
    fn say(&self, datagram: &[u8], is_end: bool) {
        let Some(rtp) = rtp::rtp(datagram) else {
            return;
        };
        let since = SystemTime::now()
            .duration_since(UNIX_EPOCH)
            .unwrap_or_default();
        let fraction = (u64::from(since.subsec_nanos()) << 32) / 1_000_000_000;
        let time = (since.as_secs() + NTP) << 32 | fraction;
        let mut compound = Compound::default();
        compound
            .sender(self.ssrc, time, rtp.timestamp, self.packets, self.bytes)
            .name(self.ssrc, &name(self.ssrc));
        if is_end {
            compound.goodbye(self.ssrc);
        }
        let mut to = self.to;
        to.set_port(to.port().saturating_add(1));
        // Where nobody hears it, the stream goes on.
        let _ = self.sockets.rtcp.send_to(compound.bytes(), to);
    }

    /// Hears what receivers ask for, and sends packets again.
    fn hear(&mut self) {
        let mut datagram = [0; 2048];
        while let Ok((len, _)) = self.sockets.rtcp.recv_from(&mut datagram) {
            for read in rtcp::read(&datagram[..len]) {
                match read {
                    Read::Nack { ssrc, sequences } if ssrc == self.ssrc => self.resend(&sequences),
                    Read::Keyframe { ssrc } if ssrc == self.ssrc => self.keyframes_asked += 1,
                    _ => {}
                }
            }
        }
    }

    fn resend(&mut self, sequences: &[u16]) {
        for sequence in sequences {
            let is_it = |it: &&Vec<u8>| it.get(2..4) == Some(&sequence.to_be_bytes());
            if let Some(datagram) = self.kept.iter().rev().find(is_it) {
                let sent = self.sockets.rtp.send_to(datagram, self.to);
                self.again += u64::from(sent.is_ok());
            }
        }
    }

    /// Ends; answers how many bytes were sent, how many packets were sent again, and how often a keyframe was
    /// asked for.
    pub fn finish(mut self) -> (u64, u64, u64) {
        let last = self.kept.back().cloned().unwrap_or_default();
        // What was lost of the last picture may still be asked for.
        self.wait(Instant::now() + Duration::from_millis(200));
        self.say(&last, true);
        (self.sent, self.again, self.keyframes_asked)
    }
}

/// The datagrams of records that `frames::write_headers` wrote.
fn datagrams(mut records: &[u8]) -> Vec<&[u8]> {
    let mut datagrams = Vec::new();
    while let Some(len) = records.get(RECORD_LEN..).and_then(|it| it.first_chunk()) {
        let end = RECORD + u32::from_le_bytes(*len) as usize;
        let Some((record, behind)) = records.split_at_checked(end) else {
            break;
        };
        datagrams.extend(record.get(DATAGRAM..));
        records = behind;
    }
    datagrams
}
