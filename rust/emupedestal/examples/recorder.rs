//! Records H.264 out of RTP over UDP into a file in Annex B form: `recorder 0.0.0.0:5004 out.h264`. RTX is undone; it
//! asks again for packets that are missing (NACK), and for a keyframe where a decoder couldn't go on (PLI), and reports
//! what came. RTCP goes to where RTP comes from (RFC 5761), without names (RFC 5506). It ends with the sender's BYE.
use emupedestal::rtp::{PictureLoss, ReceiverReport, is_rtcp, write_nack};
use emupedestal::rtp_receiver::{RtpPayloadTypes, RtpPushed, RtpReceiver, RtpSources};
use emupedestal::{AccessUnitConfig, Codec, NackTimes};
use std::io::ErrorKind::{Interrupted, TimedOut, WouldBlock};
use std::time::{Duration, Instant};
use std::{env, error::Error, fs::File, io::Write, net::UdpSocket};

type Outcome<T = ()> = Result<T, Box<dyn Error + Send + Sync>>;
/// As a session description tells them.
const TYPES: RtpPayloadTypes = RtpPayloadTypes {
    media: 96,
    rtx: Some(97),
    red: None,
    rtx_of_red: None,
    fec: None,
};
const OWN_SSRC: u32 = 0x7265_6331; // who asks and reports
const BYE: u8 = 203;
/// Milliseconds: for a missing packet, or a keyframe; until it is asked for again; and between reports.
const MAX_WAIT: u32 = 1000;
const RETRY: u32 = 20;
const REPORTS: u32 = 5000;

/// Records until the stream is over.
pub fn record(socket: UdpSocket, mut file: File) -> Outcome {
    let config = AccessUnitConfig {
        max_wait: MAX_WAIT,
        ..AccessUnitConfig::default()
    };
    let mut receiver = RtpReceiver::new(Codec::H264, TYPES, config);
    let begin = Instant::now();
    let now = || begin.elapsed().as_millis() as u32;
    let (mut sender, mut report, mut datagram, mut rtcp) = (None, REPORTS, [0; 2048], [0; 1200]);
    socket.set_read_timeout(Some(Duration::from_millis(RETRY.into())))?;
    loop {
        match socket.recv_from(&mut datagram) {
            Ok((len, _)) if is_rtcp(&datagram[..len]) && datagram[1] == BYE => break,
            Ok((len, from)) => {
                take(&mut receiver, now(), &datagram[..len]);
                sender = Some(from);
            }
            Err(it) if matches!(it.kind(), WouldBlock | TimedOut | Interrupted) => {}
            Err(it) => return Err(it.into()),
        }
        write_units(&mut receiver, now(), &mut file)?;
        let len = answer(&mut receiver, now(), &mut report, &mut rtcp)?;
        if let Some(sender) = sender.filter(|_| len > 0) {
            socket.send_to(&rtcp[..len], sender)?;
        }
    }
    receiver.finish();
    write_units(&mut receiver, now(), &mut file)
}

/// Takes a datagram; a stream that comes with another SSRC is followed from then on. Without memory it is lost.
fn take(receiver: &mut RtpReceiver, now: u32, datagram: &[u8]) {
    let (arrival, rtx) = (now.wrapping_mul(90), None);
    while let Ok(RtpPushed::NewSource(ssrc)) = receiver.push(now, arrival, datagram) {
        let media = Some(ssrc);
        receiver.follow(RtpSources { media, rtx });
    }
}

/// Writes what a decoder can decode.
fn write_units(receiver: &mut RtpReceiver, now: u32, file: &mut File) -> Outcome {
    while let Some(unit) = receiver.next(now)? {
        file.write_all(if unit.is_clean { &unit.bytes } else { &[] })?;
        receiver.give_back(unit);
    }
    Ok(())
}

/// Reports, where it is time, and asks for what is missing, and for a keyframe; how many bytes it says.
fn answer(receiver: &mut RtpReceiver, now: u32, due: &mut u32, to: &mut [u8]) -> Outcome<usize> {
    let Some(media) = receiver.sources().media else {
        return Ok(0);
    };
    let (sender, mut len) = (OWN_SSRC, 0);
    if now >= *due {
        *due = now + REPORTS;
        let block = receiver.report(0, 0).ok_or("no stream")?;
        len += ReceiverReport { sender, block }.write(to)?;
    }
    let (first, again, most) = (0, RETRY, (MAX_WAIT / RETRY) as u8);
    let missing = receiver.nacks(now, NackTimes { first, again, most }, 256)?;
    len += write_nack(sender, media, &missing, &mut to[len..])?.size;
    if receiver.keyframe_wanted(now, MAX_WAIT) {
        len += PictureLoss { sender, media }.write(&mut to[len..])?;
    }
    Ok(len)
}

fn main() -> Outcome {
    let address = env::args().nth(1).ok_or("say where to listen")?;
    let path = env::args().nth(2).ok_or("name a file")?;
    record(UdpSocket::bind(address)?, File::create(path)?)
}
