//! Live streams over UDP: what comes is handed on as a capture in a pipe, packet by packet, and is answered
//! by RTCP.

use crate::captures::ip::Part;
use crate::captures::packets::{Bears, Captured, Stream};
use crate::captures::rtp::rtp;
use crate::commands::arguments::Looking;
use crate::errors::Failure;
use crate::network::address::{canonical, to_listen};
use crate::network::feedback::{Feedback, Way};
use crate::network::rtcp;
use crate::network::sockets::Sockets;
use crate::output::parts;
use crate::streams::seed::Drawn;
use emupedestal::rtp::is_rtcp;
use std::collections::HashMap;
use std::fs::File;
use std::io::{self, BufWriter, Write};
use std::net::{IpAddr, SocketAddr, UdpSocket};
use std::os::fd::OwnedFd;
use std::os::unix::net::UnixStream;
use std::sync::Arc;
use std::sync::atomic::{AtomicBool, Ordering};
use std::thread;
use std::time::{Duration, Instant, SystemTime, UNIX_EPOCH};

/// The longest datagram.
const LONGEST: usize = 1 << 16;
/// How long is waited for a packet, in milliseconds, before it is looked whether to end.
const WAIT: i32 = 20;
/// So many packets are taken before what is due is said.
const MOST_AT_ONCE: usize = 256;
/// So many senders' ways to here are kept in mind.
const MOST_WAYS: usize = 256;
/// Of a pcap file: times in nanoseconds, version 2.4, IP packets as they are.
const FILE_HEADER: [u32; 6] = [0xa1b2_3c4d, 0x0004_0002, 0, 0, 1 << 18, 101];

/// Listens, and answers where a capture of what comes can be read, which ends by the first signal or after the
/// time that is asked for.
pub fn listen(looking: &Looking) -> Result<File, Failure> {
    let path = &looking.input;
    let failed = |error| Failure::of(path, format!("nothing can be received there: {error}"));
    let to = to_listen(path)?;
    let sockets = Sockets::to_listen(to, looking.interface.as_deref()).map_err(failed)?;
    let (from, into) = UnixStream::pair().map_err(failed)?;
    let begin = Instant::now();
    let mut listener = Listener {
        feedback: Feedback::new(Drawn::of(None).ssrc, looking, begin),
        is_over: parts::first_signal(),
        end: looking
            .seconds
            .map(|it| begin + Duration::from_secs_f64(it)),
        to,
        ways: HashMap::new(),
        sockets,
        into: BufWriter::new(into),
    };
    let run = move || {
        // Where nobody reads any more, nobody is told.
        let _ = listener.run();
    };
    thread::Builder::new().spawn(run).map_err(failed)?;
    Ok(File::from(OwnedFd::from(from)))
}

struct Listener {
    sockets: Sockets,
    /// Where packets come to.
    to: SocketAddr,
    /// The address here that packets from another come to.
    ways: HashMap<IpAddr, IpAddr>,
    feedback: Feedback,
    is_over: Arc<AtomicBool>,
    end: Option<Instant>,
    into: BufWriter<UnixStream>,
}

impl Listener {
    fn run(&mut self) -> io::Result<()> {
        for word in FILE_HEADER {
            self.into.write_all(&word.to_le_bytes())?;
        }
        self.into.flush()?;
        let mut datagram = vec![0; LONGEST];
        while !self.is_over.load(Ordering::Relaxed) && self.end.is_none_or(|it| Instant::now() < it)
        {
            self.sockets.wait(WAIT);
            for _ in 0..MOST_AT_ONCE {
                let Ok((len, from)) = self.sockets.rtp.recv_from(&mut datagram) else {
                    break;
                };
                self.take(&datagram[..len], from)?;
            }
            while let Ok((len, from)) = self.sockets.rtcp.recv_from(&mut datagram) {
                self.read(&datagram[..len], false, from);
            }
            self.into.flush()?;
            let due = self.feedback.due(Instant::now());
            self.say(&due);
        }
        let end = self.feedback.end();
        self.say(&end);
        Ok(())
    }

    fn take(&mut self, datagram: &[u8], from: SocketAddr) -> io::Result<()> {
        let since = SystemTime::now().duration_since(UNIX_EPOCH);
        let time = since.unwrap_or_default();
        let (source, port) = canonical(from);
        let to = self.address_here(source);
        if is_rtcp(datagram) {
            self.read(datagram, true, from);
        } else if let Some(rtp) = rtp(datagram) {
            let stream = Stream {
                ssrc: rtp.ssrc,
                payload_type: rtp.payload_type,
                to: (to, self.to.port()),
            };
            let packet = Captured {
                time: time.as_nanos() as u64,
                part: Part::Whole,
                datagram,
                rtp,
                is_resent: false,
                bears: Bears::Media,
            };
            self.feedback.come(&stream, &packet, from, Instant::now());
        }
        let frame = headers((source, port), (to, self.to.port()), datagram.len());
        let len = (frame.len() + datagram.len()) as u32;
        for word in [time.as_secs() as u32, time.subsec_nanos(), len, len] {
            self.into.write_all(&word.to_le_bytes())?;
        }
        self.into.write_all(&frame)?;
        self.into.write_all(datagram)
    }

    fn read(&mut self, datagram: &[u8], is_muxed: bool, from: SocketAddr) {
        let way = Way { is_muxed, to: from };
        self.feedback
            .read(&rtcp::read(datagram), way, Instant::now());
    }

    /// The address here to which packets from there come: the one that is named, or whose packets go there.
    fn address_here(&mut self, from: IpAddr) -> IpAddr {
        let named = self.to.ip();
        if !named.is_unspecified() {
            return named.to_canonical();
        }
        if let Some(known) = self.ways.get(&from) {
            return *known;
        }
        let found = way_to(from).unwrap_or(match from {
            IpAddr::V4(_) => IpAddr::from([0; 4]),
            IpAddr::V6(_) => named,
        });
        if self.ways.len() < MOST_WAYS {
            self.ways.insert(from, found);
        }
        found
    }

    /// Says what there is; where it can't go, the work goes on.
    fn say(&self, said: &[(Way, rtcp::Compound)]) {
        for (way, compound) in said {
            let by = if way.is_muxed {
                &self.sockets.rtp
            } else {
                &self.sockets.rtcp
            };
            let _ = by.send_to(compound.bytes(), way.to);
        }
    }
}

/// The address from which packets go to another.
pub fn way_to(to: IpAddr) -> io::Result<IpAddr> {
    let any = match to {
        IpAddr::V4(_) => IpAddr::from([0; 4]),
        IpAddr::V6(_) => IpAddr::from([0; 16]),
    };
    let socket = UdpSocket::bind((any, 0))?;
    // (nothing is sent by that)
    socket.connect((to, 9))?;
    Ok(socket.local_addr()?.ip())
}

/// The headers of IP and UDP before so many bytes, without checksums.
fn headers(from: (IpAddr, u16), to: (IpAddr, u16), len: usize) -> Vec<u8> {
    let udp = (8 + len) as u16;
    let mut headers = match (from.0, to.0) {
        (IpAddr::V4(source), IpAddr::V4(destination)) => {
            let mut header = vec![0x45, 0];
            header.extend(udp.saturating_add(20).to_be_bytes());
            header.extend([0, 0, 0x40, 0, 64, 17, 0, 0]);
            header.extend(source.octets());
            header.extend(destination.octets());
            header
        }
        (source, destination) => {
            let octets = |it: IpAddr| match it {
                IpAddr::V4(it) => it.to_ipv6_mapped().octets(),
                IpAddr::V6(it) => it.octets(),
            };
            let mut header = vec![0x60, 0, 0, 0];
            header.extend(udp.to_be_bytes());
            header.extend([17, 64]);
            header.extend(octets(source));
            header.extend(octets(destination));
            header
        }
    };
    for half in [from.1, to.1, udp, 0] {
        headers.extend(half.to_be_bytes());
    }
    headers
}
