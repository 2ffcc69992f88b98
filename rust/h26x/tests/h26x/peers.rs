//! What FFmpeg and GStreamer send, received, and what is sent, received by them, over UDP on this
//! machine; left out where they are missing.

use crate::build::{Rtp, THREE_UNITS, ethernet, ipv4, pcap, udp};
use crate::program::{Folder, cut, streams};
use std::fs::{self, File};
use std::io::ErrorKind;
use std::net::{Ipv4Addr, UdpSocket};
use std::path::PathBuf;
use std::process::{self, Child, Command, Stdio};
use std::sync::atomic::{AtomicU32, Ordering};
use std::thread::sleep;
use std::time::{Duration, Instant};

/// So long another program may take for what it does in less than a second.
const PATIENCE: Duration = Duration::from_secs(15);
/// Where the system has the UDP sockets.
const SOCKETS: &str = "/proc/net/udp";

/// Waits until something is so; whether it came to be.
pub fn until(mut is_so: impl FnMut() -> bool) -> bool {
    let begin = Instant::now();
    while !is_so() {
        if begin.elapsed() > PATIENCE {
            return false;
        }
        sleep(Duration::from_millis(2));
    }
    true
}

/// Another program that runs in a folder; it is ended with the test.
pub struct Peer {
    name: &'static str,
    child: Child,
    said: PathBuf,
}

impl Peer {
    /// Starts a program, or says that it is missing.
    pub fn start(folder: &Folder, name: &'static str, words: &[&str]) -> Option<Self> {
        let said = folder.path("said");
        let child = Command::new(name)
            .args(words)
            .current_dir(folder.path(""))
            .stdin(Stdio::null())
            .stdout(Stdio::null())
            .stderr(File::create(&said).expect("room"))
            .spawn();
        match child {
            Ok(child) => Some(Peer { name, child, said }),
            Err(error) => {
                eprintln!("left out, since {name} can't be started: {error}");
                None
            }
        }
    }

    pub fn id(&self) -> u32 {
        self.child.id()
    }

    fn said(&self) -> String {
        String::from_utf8_lossy(&fs::read(&self.said).expect("what it said")).into_owned()
    }

    fn has_ended(&mut self) -> bool {
        self.child.try_wait().expect("a child").is_some()
    }

    /// Waits for its end; whether it came in time.
    pub fn ends(&mut self) -> bool {
        until(|| self.has_ended())
    }

    /// Waits for its end; whether it went well.
    #[track_caller]
    pub fn end(mut self) -> bool {
        assert!(self.ends(), "{} doesn't end: {}", self.name, self.said());
        let is_well = self.child.wait().is_ok_and(|status| status.success());
        if !is_well {
            eprintln!("{} says: {}", self.name, self.said());
        }
        is_well
    }

    /// Waits until it has a port, or says that it can't.
    pub fn listens(&mut self, port: u16) -> bool {
        let has_port = until(|| waiting_bytes(port).is_some() || self.has_ended());
        let listens = has_port && waiting_bytes(port).is_some();
        if !listens {
            eprintln!("left out, since {} can't: {}", self.name, self.said());
        }
        listens
    }
}

impl Drop for Peer {
    fn drop(&mut self) {
        let _ = self.child.kill();
        let _ = self.child.wait();
    }
}

/// How many bytes wait in the socket that has a port, or nothing where none has it.
fn waiting_bytes(port: u16) -> Option<u32> {
    let sockets = fs::read_to_string(SOCKETS).expect("the system's sockets");
    sockets.lines().skip(1).find_map(|line| {
        let words: Vec<&str> = line.split_whitespace().collect();
        let is_its = words[1].ends_with(&format!(":{port:04X}"));
        let waiting = words[4].rsplit(':').next().expect("what waits");
        is_its.then(|| u32::from_str_radix(waiting, 16).expect("a number"))
    })
}

/// Whether the system tells its sockets.
pub fn tells_sockets() -> bool {
    let is_there = fs::exists(SOCKETS).is_ok_and(|it| it);
    if !is_there {
        eprintln!("left out, since {SOCKETS} is missing");
    }
    is_there
}

/// Sockets of two ports that follow one another, the lower for RTP (RFC 3550, 11). They are none of
/// those that the system gives away by itself.
pub fn sockets() -> (u16, [UdpSocket; 2]) {
    static NEXT: AtomicU32 = AtomicU32::new(0);
    let bind = |port| UdpSocket::bind((Ipv4Addr::LOCALHOST, port)).ok();
    let of_next = |_| {
        let number = process::id() * 32 + NEXT.fetch_add(1, Ordering::Relaxed);
        let port = 20_000 + (number % 6000 * 2) as u16;
        Some((port, [bind(port)?, bind(port + 1)?]))
    };
    (0..1000).find_map(of_next).expect("free ports")
}

/// The length of the next datagram, unless none comes in a socket's time. The system may interrupt a call that
/// has one.
pub fn receive(socket: &UdpSocket, datagram: &mut [u8]) -> Option<usize> {
    loop {
        match socket.recv(datagram) {
            Err(error) if error.kind() == ErrorKind::Interrupted => {}
            came => return came.ok(),
        }
    }
}

/// The packets that a program sends to a socket; nothing where it is missing or can't.
#[track_caller]
pub fn packets_from(
    socket: &UdpSocket,
    folder: &Folder,
    name: &'static str,
    words: &[&str],
) -> Option<Vec<Vec<u8>>> {
    let mut peer = Peer::start(folder, name, words)?;
    let timeout = Some(Duration::from_millis(50));
    socket.set_read_timeout(timeout).expect("a timeout");
    let (mut packets, mut buffer) = (Vec::new(), vec![0; 65536]);
    let begin = Instant::now();
    while begin.elapsed() < PATIENCE {
        // What it sent before its end is here by then.
        let has_ended = peer.has_ended();
        match socket.recv(&mut buffer) {
            Ok(len) => packets.push(buffer[..len].to_vec()),
            Err(_) if has_ended => break,
            Err(_) => {}
        }
    }
    if peer.end() {
        return Some(packets);
    }
    eprintln!("left out, since {name} can't");
    None
}

/// Sends packets to a port one by one, each when the one before is taken.
#[track_caller]
pub fn send_to(port: u16, packets: &[Vec<u8>]) {
    let socket = UdpSocket::bind((Ipv4Addr::LOCALHOST, 0)).expect("a socket");
    for packet in packets {
        socket
            .send_to(packet, (Ipv4Addr::LOCALHOST, port))
            .expect("sent");
        let is_taken = until(|| waiting_bytes(port).unwrap_or(0) == 0);
        assert!(is_taken, "packets to port {port} are taken");
    }
}

/// The capture of packets, as they would be seen on Ethernet.
pub fn captured(packets: &[Vec<u8>]) -> Vec<u8> {
    let frame = |packet: &Vec<u8>| ethernet(&[], 0x0800, &ipv4(&[], 0x4000, &udp(packet)));
    pcap(&packets.iter().map(frame).collect::<Vec<_>>())
}

/// The RTP packets of a capture that the program wrote: behind the record's header of 16 bytes stand
/// those of Ethernet, IPv4 and UDP.
pub fn packets_in(capture: &[u8]) -> Vec<Vec<u8>> {
    let mut packets = Vec::new();
    let mut records = &capture[24..];
    while let Some((header, rest)) = records.split_first_chunk::<16>() {
        let len = header[8..12].try_into().expect("four bytes");
        let (frame, behind) = rest.split_at(u32::from_le_bytes(len) as usize);
        packets.push(frame[14 + 20 + 8..].to_vec());
        records = behind;
    }
    packets
}

/// Whether a unit is a slice (H.264, table 7-1; H.265, table 7-1).
fn is_slice(codec: &str, unit: &[u8]) -> bool {
    match codec {
        "h264" => matches!(unit[0] & 0x1f, 1..=5),
        _ => unit[0] >> 1 & 0x3f < 32,
    }
}

fn is_delimiter(codec: &str, unit: &[u8]) -> bool {
    match codec {
        "h264" => unit[0] & 0x1f == 9,
        _ => unit[0] >> 1 & 0x3f == 35,
    }
}

/// These are the stream's slices, and beside them are its other units, which programs repeat; they
/// put delimiters before access units, too.
#[track_caller]
pub fn check_units(codec: &str, back: &[u8], stream: &[u8]) {
    let [back, units] = [back, stream].map(cut);
    let slices = |units: &[Vec<u8>]| -> Vec<Vec<u8>> {
        let slices = units.iter().filter(|it| is_slice(codec, it));
        slices.cloned().collect()
    };
    assert_eq!(slices(&back), slices(&units));
    for unit in &back {
        let is_known = units.contains(unit) || is_delimiter(codec, unit);
        assert!(is_known, "a unit that the stream hasn't: {unit:x?}");
    }
    for unit in &units {
        let is_back = back.contains(unit) || is_delimiter(codec, unit);
        assert!(is_back, "a unit that didn't come: {unit:x?}");
    }
}

/// Inspects and receives a capture of another program's packets: none is lost or refused.
#[track_caller]
pub fn check_capture(folder: &Folder, capture: &str, codec: &str, stream: &[u8], kinds: &[&str]) {
    let name = if codec == "h264" { "H.264" } else { "H.265" };
    let inspected = folder.run(&["inspect", capture]);
    inspected.says(0, &[&[name], kinds].concat());
    let back = format!("back.{codec}");
    folder.run(&["receive", capture, &back]).says(0, &[]);
    check_units(codec, &folder.read(&back), stream);
}

/// The small streams of the codecs that both programs know.
pub fn small_streams() -> [(&'static str, Vec<u8>); 2] {
    ["h264", "h265"].map(|codec| {
        let path = streams().join("test_pictures").with_extension(codec);
        (codec, fs::read(path).expect("a small stream"))
    })
}

/// The packets that FFmpeg sends to a socket; nothing where it is missing or can't.
#[track_caller]
fn packets_of_ffmpeg(
    socket: &UdpSocket,
    codec: &str,
    stream: &[u8],
    query: &str,
) -> Option<Vec<Vec<u8>>> {
    let folder = Folder::new();
    let input = format!("in.{codec}");
    folder.write(&input, stream);
    let to = format!("rtp://{}{query}", socket.local_addr().expect("a port"));
    let words = ["-v", "error", "-i", &input, "-c", "copy", "-f", "rtp", &to];
    packets_from(socket, &folder, "ffmpeg", &words)
}

#[test]
fn what_ffmpeg_sends() {
    for (codec, stream) in small_streams() {
        let fragment = if codec == "h264" { "FU-A E" } else { "FU E" };
        for (query, kind) in [("", "single"), ("?pkt_size=300", fragment)] {
            let (_, [socket, _control]) = sockets();
            let Some(packets) = packets_of_ffmpeg(&socket, codec, &stream, query) else {
                return;
            };
            let folder = Folder::new();
            folder.write("in.pcap", &captured(&packets));
            check_capture(&folder, "in.pcap", codec, &stream, &[kind]);
        }
    }
}

/// The packets that GStreamer sends, which puts units together as this mode says, and has its packets
/// go through an element more.
#[track_caller]
fn packets_of_gstreamer(
    codec: &str,
    stream: &[u8],
    mode: &str,
    element: &str,
) -> Option<Vec<Vec<u8>>> {
    let folder = Folder::new();
    folder.write("in", stream);
    let (port, [socket, _control]) = sockets();
    let pipeline = format!(
        "filesrc location=in ! {codec}parse ! \
         rtp{codec}pay mtu=300 aggregate-mode={mode} config-interval=-1 ! \
         {element} ! udpsink host=127.0.0.1 port={port} sync=false"
    );
    let words: Vec<&str> = pipeline.split_whitespace().collect();
    packets_from(&socket, &folder, "gst-launch-1.0", &words)
}

#[test]
fn what_gstreamer_sends() {
    let modes: [&[(&str, &str)]; 2] = [
        &[
            ("none", "FU-A -"),
            ("zero-latency", "STAP-A"),
            ("max-stap", "STAP-A"),
        ],
        &[("none", "FU -"), ("zero-latency", "AP"), ("max", "AP")],
    ];
    for ((codec, stream), modes) in small_streams().into_iter().zip(modes) {
        for (mode, kind) in modes {
            let Some(packets) = packets_of_gstreamer(codec, &stream, mode, "identity") else {
                return;
            };
            let folder = Folder::new();
            folder.write("in.pcap", &captured(&packets));
            check_capture(&folder, "in.pcap", codec, &stream, &["single", kind]);
        }
    }
}

/// Packets for error correction stand between fragments, and are numbered with them (RFC 5109).
#[test]
fn what_gstreamer_sends_with_error_correction() {
    let element = "rtpulpfecenc pt=122 percentage=100 multipacket=false";
    for (codec, stream) in small_streams() {
        let Some(packets) = packets_of_gstreamer(codec, &stream, "none", element) else {
            return;
        };
        let folder = Folder::new();
        folder.write("in.pcap", &captured(&packets));
        check_capture(&folder, "in.pcap", codec, &stream, &["payload type 122"]);
    }
}

/// Units behind lengths, as GStreamer writes them.
#[test]
fn what_gstreamer_writes_behind_lengths() {
    for ((codec, stream), form) in small_streams().into_iter().zip(["avc3", "hev1"]) {
        let folder = Folder::new();
        folder.write("in", &stream);
        let pipeline = format!(
            "filesrc location=in ! {codec}parse ! \
             video/x-{codec},stream-format={form},alignment=au ! filesink location=units"
        );
        let words: Vec<&str> = pipeline.split_whitespace().collect();
        let Some(peer) = Peer::start(&folder, "gst-launch-1.0", &words) else {
            return;
        };
        if !peer.end() {
            return;
        }
        let send = ["send", "--lengths", "units", "out.pcap", "--codec", codec];
        folder.run(&send).says(0, &[]);
        check_capture(&folder, "out.pcap", codec, &stream, &[]);
    }
}

/// A set, a unit in two fragments, and between them packets of another payload type, marked by an
/// empty payload; all with these numbers.
fn with_another_type(packets: &[(u16, &[u8])]) -> Vec<u8> {
    let packet = |(sequence, payload): &(u16, &[u8])| {
        let mut packet = Rtp::new(*sequence, 9000, false, payload).bytes();
        if payload.is_empty() {
            packet[1] = 122;
            packet.extend([0; 20]);
        }
        packet
    };
    captured(&packets.iter().map(packet).collect::<Vec<_>>())
}

#[test]
fn packets_of_another_payload_type() {
    let set: &[u8] = &[0x67, 0x42, 0xc0, 0x1f];
    let [first, last]: [&[u8]; 2] = [&[0x7c, 0x85, 0x88, 1], &[0x7c, 0x45, 2, 3]];
    let other: &[u8] = &[];
    let whole = [
        // Numbered together, and by themselves.
        [
            (65533, set),
            (65534, first),
            (65535, other),
            (0, last),
            (1, other),
        ],
        [
            (65534, set),
            (65535, first),
            (700, other),
            (0, last),
            (701, other),
        ],
    ];
    let folder = Folder::new();
    for packets in whole {
        folder.write("in.pcap", &with_another_type(&packets));
        folder
            .run(&["inspect", "in.pcap"])
            .says(0, &["3 packets of"]);
        folder
            .run(&["receive", "in.pcap", "back.h264"])
            .says(0, &[]);
        assert_eq!(folder.read("back.h264"), THREE_UNITS);
    }
    // The first fragment is lost.
    let lost = [(65533, set), (65534, other), (0, last), (1, other)];
    folder.write("in.pcap", &with_another_type(&lost));
    let inspected = folder.run(&["inspect", "in.pcap"]);
    inspected.says(3, &["lost: 1 packet: 1 before 0\n"]);
}

/// Sends a stream into a capture, and answers its packets.
#[track_caller]
fn packets_of(folder: &Folder, codec: &str, stream: &[u8], mtu: &str) -> Vec<Vec<u8>> {
    let input = format!("in.{codec}");
    folder.write(&input, stream);
    folder
        .run(&["send", &input, "out.pcap", "--mtu", mtu])
        .says(0, &[]);
    packets_in(&folder.read("out.pcap"))
}

/// Has FFmpeg receive packets, and compares the units; false where it is missing or can't.
#[track_caller]
fn ffmpeg_receives(codec: &str, stream: &[u8], mtu: &str) -> bool {
    let folder = Folder::new();
    let packets = packets_of(&folder, codec, stream, mtu);
    let (port, free) = sockets();
    drop(free);
    let name = codec.to_uppercase();
    let description = format!(
        "v=0\r\no=- 0 0 IN IP4 127.0.0.1\r\ns=-\r\nc=IN IP4 127.0.0.1\r\nt=0 0\r\n\
         m=video {port} RTP/AVP 96\r\na=rtpmap:96 {name}/90000\r\n"
    );
    folder.write("in.sdp", description.as_bytes());
    let format = if codec == "h264" { "h264" } else { "hevc" };
    let command = format!(
        "-v error -protocol_whitelist file,udp,rtp -localaddr 127.0.0.1 -i in.sdp \
         -c copy -f {format} back"
    );
    let words: Vec<&str> = command.split_whitespace().collect();
    let Some(mut peer) = Peer::start(&folder, "ffmpeg", &words) else {
        return false;
    };
    if !peer.listens(port) || !peer.listens(port + 1) {
        return false;
    }
    send_to(port, &packets);
    // The sender's report that it has nothing to report, and that it leaves (RFC 3550, 6.1 and 6.6).
    let ssrc = &packets[0][8..12];
    let bye = [&[0x80, 201, 0, 1], ssrc, &[0x81, 203, 0, 1], ssrc].concat();
    send_to(port + 1, &[bye]);
    assert!(peer.end(), "ffmpeg takes them");
    check_units(codec, &folder.read("back"), stream);
    true
}

#[test]
fn what_ffmpeg_receives() {
    for (codec, stream) in small_streams() {
        for mtu in ["1200", "100"] {
            if !tells_sockets() || !ffmpeg_receives(codec, &stream, mtu) {
                return;
            }
        }
    }
}

/// Has GStreamer receive packets, and compares the units; false where it is missing or can't.
#[track_caller]
fn gstreamer_receives(codec: &str, stream: &[u8], mtu: &str) -> bool {
    let folder = Folder::new();
    let packets = packets_of(&folder, codec, stream, mtu);
    let (port, free) = sockets();
    drop(free);
    let (name, count) = (codec.to_uppercase(), packets.len());
    let pipeline = format!(
        "udpsrc address=127.0.0.1 port={port} num-buffers={count} \
         caps=application/x-rtp,media=video,clock-rate=90000,encoding-name={name},payload=96 ! \
         rtp{codec}depay ! {codec}parse ! video/x-{codec},stream-format=byte-stream ! \
         filesink location=back"
    );
    let words: Vec<&str> = pipeline.split_whitespace().collect();
    let Some(mut peer) = Peer::start(&folder, "gst-launch-1.0", &words) else {
        return false;
    };
    if !peer.listens(port) {
        return false;
    }
    send_to(port, &packets);
    assert!(peer.end(), "GStreamer takes them");
    check_units(codec, &folder.read("back"), stream);
    true
}

#[test]
fn what_gstreamer_receives() {
    for (codec, stream) in small_streams() {
        for mtu in ["1200", "100"] {
            if !tells_sockets() || !gstreamer_receives(codec, &stream, mtu) {
                return;
            }
        }
    }
}

/// Has dumpcap capture what is sent to a port and the next one; nothing where it is missing, or may
/// not.
pub fn start_capture(folder: &Folder, port: u16) -> Option<Peer> {
    let filter = format!("udp port {port} or udp port {}", port + 1);
    let words = ["-q", "-i", "lo", "-f", &filter, "-w", "in.pcapng"];
    let mut dumpcap = Peer::start(folder, "dumpcap", &words)?;
    // It names its file once it captures.
    until(|| dumpcap.said().contains("File: ") || dumpcap.has_ended());
    let captures = dumpcap.said().contains("File: ") && !dumpcap.has_ended();
    if !captures {
        eprintln!("left out, since dumpcap can't: {}", dumpcap.said());
    }
    captures.then_some(dumpcap)
}

/// Ends a capture, once a datagram that is sent to the socket is in it.
#[track_caller]
pub fn end_capture(folder: &Folder, dumpcap: Peer, socket: &UdpSocket) {
    let last = b"this is the last datagram";
    let to = socket.local_addr().expect("a port");
    socket.send_to(last, to).expect("sent");
    let has_last = || {
        let capture = folder.read("in.pcapng");
        capture.windows(last.len()).any(|it| it == last)
    };
    assert!(until(has_last), "dumpcap writes what it captures");
    let interrupted = Command::new("sh")
        .args(["-c", "kill -INT $0", &dumpcap.child.id().to_string()])
        .status();
    assert!(interrupted.is_ok_and(|status| status.success()));
    assert!(dumpcap.end(), "dumpcap ends its file");
}

/// What FFmpeg sends, in frames of the loopback interface, with RTCP and another datagram beside it.
#[test]
fn what_dumpcap_captures() {
    for (codec, stream) in small_streams() {
        let folder = Folder::new();
        let (port, [socket, _control]) = sockets();
        let Some(dumpcap) = start_capture(&folder, port) else {
            return;
        };
        let Some(packets) = packets_of_ffmpeg(&socket, codec, &stream, "") else {
            return;
        };
        end_capture(&folder, dumpcap, &socket);
        let count = format!("{} packets of", packets.len());
        check_capture(&folder, "in.pcapng", codec, &stream, &["single", &count]);
    }
}
