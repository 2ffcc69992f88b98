//! Live streams: both ends of the program, and FFmpeg and GStreamer at the other end of each.

use crate::peers::{
    Peer, check_units, receive, send_to, small_streams, sockets, tells_sockets, until,
};
use crate::program::{Folder, PROGRAM, cut};
use std::fs;
use std::net::UdpSocket;
use std::process::Command;
use std::time::Duration;

/// Whether a socket has a port, of IPv4 or of IPv6.
fn is_taken(port: u16) -> bool {
    ["/proc/net/udp", "/proc/net/udp6"].iter().any(|it| {
        let sockets = fs::read_to_string(it).unwrap_or_default();
        sockets.contains(&format!(":{port:04X} "))
    })
}

fn free_port() -> u16 {
    let (port, free) = sockets();
    drop(free);
    port
}

/// The program that receives or inspects at an address, once it listens there.
fn listening(folder: &Folder, port: u16, words: &[&str]) -> Peer {
    let peer = Peer::start(folder, PROGRAM, words).expect("the program");
    assert!(until(|| is_taken(port) && is_taken(port + 1)), "it listens");
    peer
}

fn signal(peer: &Peer, name: &str) {
    let line = format!("kill -s {name} {}", peer.id());
    let killed = Command::new("sh").args(["-c", &line]).status();
    assert!(killed.expect("a shell").success());
}

/// A stream goes through both ends, over IPv4, IPv6 and a group, as long as is asked for.
#[test]
fn both_ends() {
    if !tells_sockets() {
        return;
    }
    let addresses = [
        ("127.0.0.1", "127.0.0.1", &[][..]),
        ("[::1]", "[::1]", &[]),
        ("", "127.0.0.1", &[]),
        ("239.77.6.5", "239.77.6.5", &["--interface", "lo"]),
    ];
    for (at, to, options) in addresses {
        let (codec, stream) = &small_streams()[0];
        if to == "[::1]" && UdpSocket::bind("[::1]:0").is_err() {
            eprintln!("left out, since there is no IPv6");
            continue;
        }
        let (folder, port) = (Folder::new(), free_port());
        folder.write("in.h264", stream);
        let (at, to) = (format!("udp://{at}:{port}"), format!("udp://{to}:{port}"));
        let words = [&["receive", &at, "out.h264", "--for", "2"], options].concat();
        let peer = listening(&folder, port, &words);
        let sent = folder.run(&[&["send", "in.h264", &to, "--fps", "100"], options].concat());
        sent.says(0, &["50 access units in"]);
        assert!(peer.end(), "{at}");
        check_units(codec, &folder.read("out.h264"), stream);
    }
}

/// A picture a time: fifty of fifty a second take a second, and the last is sent within half of its own.
#[test]
fn a_stream_is_sent_in_its_time() {
    let folder = Folder::new();
    folder.write("in.h264", &small_streams()[0].1);
    let (port, [socket, _rtcp]) = sockets();
    socket
        .set_read_timeout(Some(Duration::from_secs(5)))
        .expect("a time");
    let to = format!("udp://127.0.0.1:{port}");
    let words = ["send", "in.h264", &to, "--fps", "50", "--sdp", "out.sdp"];
    let peer = Peer::start(&folder, PROGRAM, &words).expect("the program");
    let mut datagram = [0; 2000];
    let mut next = || receive(&socket, &mut datagram).map(|len| datagram[..len].to_vec());
    let first = next().expect("a packet");
    let begin = std::time::Instant::now();
    // The description stands there before the first packet goes.
    let description = String::from_utf8(folder.read("out.sdp")).expect("text");
    for line in [
        "c=IN IP4 127.0.0.1",
        &format!("m=video {port} RTP/AVP 96"),
        "sprop-parameter-sets=",
    ] {
        assert!(description.contains(line), "{description}");
    }
    let timestamp = |it: &[u8]| u32::from_be_bytes([it[4], it[5], it[6], it[7]]);
    let mut last = first.clone();
    while timestamp(&last) != timestamp(&first) + 49 * 1800 {
        let after = format!("fifty pictures of 1/50 s, which has 1800 ticks: {last:?}");
        last = next().expect(&after);
    }
    let took = begin.elapsed();
    let wanted = Duration::from_millis(960)..Duration::from_secs(4);
    assert!(wanted.contains(&took), "{took:?}");
    assert!(peer.end());
}

/// What is lost on the way is asked for again, and sent again; reports go both ways.
#[test]
fn lost_packets_are_asked_for() {
    if !tells_sockets() {
        return;
    }
    let folder = Folder::new();
    let stream = &small_streams()[0].1;
    folder.write("in.h264", stream);
    let port = free_port();
    // Between the two ends, a way that loses two packets.
    let (between, [rtp, rtcp]) = sockets();
    let at = format!("udp://127.0.0.1:{port}");
    let receiver = listening(&folder, port, &["receive", &at, "out.h264", "--for", "4"]);
    let way = std::thread::spawn(move || pass_on(&rtp, &rtcp, port));
    let to = format!("udp://127.0.0.1:{between}");
    let sent = folder.run(&["send", "in.h264", &to, "--fps", "50"]);
    sent.says(0, &["50 access units in", "2 packets sent again"]);
    assert!(receiver.end());
    let seen = way.join().expect("a way");
    assert_eq!(seen.lost, 2);
    assert!(
        seen.reports_of_sender > 0 && seen.reports_of_receiver > 0,
        "{seen:?}"
    );
    check_units("h264", &folder.read("out.h264"), stream);
}

/// A packet that is lost comes by RTX once it is asked for, and isn't asked for again.
#[test]
fn what_rtx_sends_again_is_not_asked_for() {
    if !tells_sockets() {
        return;
    }
    let folder = Folder::new();
    let stream = &small_streams()[0].1;
    folder.write("in.h264", stream);
    folder.run(&["send", "in.h264", "in.pcap"]).says(0, &[]);
    let mut packets = crate::peers::packets_in(&folder.read("in.pcap"));
    let lost = packets.remove(10);
    let port = free_port();
    let at = format!("udp://127.0.0.1:{port}");
    let words = ["receive", &at, "out.h264", "--rtx", "97=96", "--for", "2"];
    let peer = listening(&folder, port, &words);
    let (_, [rtp, rtcp]) = sockets();
    let to = ("127.0.0.1", port);
    for packet in &packets[..packets.len() - 1] {
        rtp.send_to(packet, to).expect("sent");
        std::thread::sleep(Duration::from_millis(1));
    }
    // Packets of transport feedback stand behind a report and a name (RFC 4585, 6.1).
    let asks = |wait| {
        let mut datagram = [0; 500];
        rtcp.set_read_timeout(Some(wait)).expect("a time");
        let came = receive(&rtcp, &mut datagram);
        came.is_some_and(|len| datagram[..len].windows(2).any(|it| it == [0x81, 205]))
    };
    assert!(asks(Duration::from_secs(1)), "it is asked for");
    let mut again = lost.clone();
    again[1] ^= 96 ^ 97;
    again[8] ^= 1;
    again.splice(12..12, [lost[2], lost[3]]);
    rtp.send_to(&again, to).expect("sent");
    rtp.send_to(&packets[packets.len() - 1], to).expect("sent");
    // It would be asked for three times; one request more may be on its way already.
    let more = (0..2).filter(|_| asks(Duration::from_millis(500))).count();
    assert!(more < 2, "it has come");
    assert!(peer.end());
    check_units("h264", &folder.read("out.h264"), stream);
}

#[derive(Debug, Default)]
struct Seen {
    lost: usize,
    reports_of_sender: usize,
    reports_of_receiver: usize,
}

/// Passes packets on for four seconds: those of the sender to a port, but for two, and RTCP both ways.
fn pass_on(rtp: &UdpSocket, rtcp: &UdpSocket, port: u16) -> Seen {
    let mut seen = Seen::default();
    let mut datagram = [0; 2000];
    let mut sender = None;
    let begin = std::time::Instant::now();
    rtp.set_nonblocking(true)
        .and(rtcp.set_nonblocking(true))
        .expect("sockets");
    let mut came = 0;
    while begin.elapsed() < Duration::from_millis(3800) {
        while let Ok(len) = rtp.recv(&mut datagram) {
            came += 1;
            match came {
                10 | 20 => seen.lost += 1,
                _ => drop(rtp.send_to(&datagram[..len], ("127.0.0.1", port))),
            }
        }
        while let Ok((len, from)) = rtcp.recv_from(&mut datagram) {
            let to = match datagram[1] {
                200 => {
                    seen.reports_of_sender += 1;
                    sender = Some(from);
                    Some(([127, 0, 0, 1], port + 1).into())
                }
                _ => {
                    seen.reports_of_receiver += 1;
                    sender
                }
            };
            to.iter()
                .for_each(|it| drop(rtcp.send_to(&datagram[..len], it)));
        }
        std::thread::sleep(Duration::from_millis(1));
    }
    seen
}

/// The first signal ends a live stream well, and what came is written; so does one that waits for its first packet.
#[test]
fn a_signal_ends_it() {
    if !tells_sockets() {
        return;
    }
    let folder = Folder::new();
    let stream = &small_streams()[0].1;
    folder.write("in.h264", stream);
    folder.run(&["send", "in.h264", "in.pcap"]).says(0, &[]);
    let packets = crate::peers::packets_in(&folder.read("in.pcap"));
    let port = free_port();
    let at = format!("udp://127.0.0.1:{port}");
    let peer = listening(&folder, port, &["receive", &at, "out.h264"]);
    send_to(port, &packets);
    std::thread::sleep(Duration::from_millis(300));
    signal(&peer, "TERM");
    assert!(peer.end());
    assert_eq!(cut(&folder.read("out.h264")), cut(stream));
    let peer = listening(&folder, port, &["inspect", &at]);
    signal(&peer, "TERM");
    assert!(!peer.end(), "there is no stream");
    assert_eq!(
        folder
            .names()
            .iter()
            .filter(|it| it.contains(".part"))
            .count(),
        0
    );
}

/// FFmpeg sends a stream, which is received; whether there is FFmpeg.
fn from_ffmpeg(folder: &Folder, codec: &str, name: &str, stream: &[u8]) -> bool {
    let port = free_port();
    let (at, to) = (
        format!("udp://127.0.0.1:{port}"),
        format!("rtp://127.0.0.1:{port}"),
    );
    let receive = ["receive", &at, "out", "--codec", codec, "--for", "4"];
    let receiver = listening(folder, port, &receive);
    let words = format!("-loglevel error -re -i {name} -c copy -f rtp {to}");
    let words: Vec<&str> = words.split(' ').collect();
    let Some(peer) = Peer::start(folder, "ffmpeg", &words) else {
        return false;
    };
    assert!(peer.end(), "FFmpeg sends");
    assert!(receiver.end(), "it is received");
    check_units(codec, &folder.read("out"), stream);
    true
}

/// A stream is sent to FFmpeg, where that can listen.
fn to_ffmpeg(folder: &Folder, codec: &str, name: &str, stream: &[u8]) {
    let port = free_port();
    let to = format!("udp://127.0.0.1:{port}");
    folder
        .run(&["send", name, &to, "--fps", "1000", "--sdp", "out.sdp"])
        .says(0, &[]);
    let words = format!(
        "-loglevel error -protocol_whitelist file,udp,rtp -reorder_queue_size 0 -i out.sdp -c copy -f {} -y back",
        codec_of(codec)
    );
    let words: Vec<&str> = words.split(' ').collect();
    let mut peer = Peer::start(folder, "ffmpeg", &words).expect("FFmpeg");
    if !peer.listens(port) {
        return;
    }
    let again = ["send", name, &to, "--fps", "50"];
    folder.run(&again).says(0, &[" access units in"]);
    // The goodbye at the end ends FFmpeg.
    assert!(peer.end(), "FFmpeg takes them");
    check_units(codec, &folder.read("back"), stream);
}

/// FFmpeg sends to a port, and takes what is sent by its description.
#[test]
fn ffmpeg_at_the_other_end() {
    for (codec, stream) in small_streams() {
        let folder = Folder::new();
        let name = format!("in.{codec}");
        folder.write(&name, &stream);
        if !tells_sockets() || !from_ffmpeg(&folder, codec, &name, &stream) {
            return;
        }
        to_ffmpeg(&folder, codec, &name, &stream);
    }
}

fn codec_of(codec: &str) -> &'static str {
    if codec == "h264" { "h264" } else { "hevc" }
}

/// GStreamer sends to a port, and takes what is sent, with the RTCP of its rtpbin at both.
#[test]
fn gstreamer_at_the_other_end() {
    for (codec, stream) in small_streams() {
        let (folder, port) = (Folder::new(), free_port());
        let name = format!("in.{codec}");
        folder.write(&name, &stream);
        if !tells_sockets() {
            return;
        }
        let at = format!("udp://127.0.0.1:{port}");
        let receiver = listening(
            &folder,
            port,
            &["receive", &at, "out", "--codec", codec, "--for", "4"],
        );
        let pipeline = format!(
            "rtpbin name=bin filesrc location={name} ! {codec}parse ! rtp{codec}pay pt=96 \
             config-interval=-1 ! bin.send_rtp_sink_0 bin.send_rtp_src_0 ! udpsink host=127.0.0.1 \
             port={port} sync=false bin.send_rtcp_src_0 ! udpsink host=127.0.0.1 port={} sync=false async=false",
            port + 1
        );
        let words: Vec<&str> = pipeline.split_whitespace().collect();
        let Some(peer) = Peer::start(&folder, "gst-launch-1.0", &words) else {
            return;
        };
        // What sends reports waits for more to report.
        assert!(receiver.end(), "it is received");
        drop(peer);
        check_units(codec, &folder.read("out"), &stream);
        let sent = folder.run(&["send", &name, "in.pcap", "--payload-type", "96"]);
        sent.says(0, &[" access units in"]);
        let count = crate::peers::packets_in(&folder.read("in.pcap")).len();
        let port = free_port();
        let encoding = codec.to_uppercase();
        let pipeline = format!(
            "rtpbin name=bin latency=50 udpsrc address=127.0.0.1 port={port} num-buffers={count} \
             caps=application/x-rtp,media=video,clock-rate=90000,encoding-name={encoding},payload=96 ! \
             bin.recv_rtp_sink_0 udpsrc address=127.0.0.1 port={} ! bin.recv_rtcp_sink_0 bin. ! \
             rtp{codec}depay ! {codec}parse ! video/x-{codec},stream-format=byte-stream ! \
             filesink location=back async=false",
            port + 1
        );
        let words: Vec<&str> = pipeline.split_whitespace().collect();
        let mut peer = Peer::start(&folder, "gst-launch-1.0", &words).expect("GStreamer");
        if !peer.listens(port) {
            return;
        }
        let to = format!("udp://127.0.0.1:{port}");
        folder
            .run(&["send", &name, &to, "--fps", "50"])
            .says(0, &[" access units in"]);
        let all = cut(&stream).len() - 1;
        let came = || cut(&fs::read(folder.path("back")).unwrap_or_default()).len() >= all;
        until(came);
        drop(peer);
        check_units(codec, &folder.read("back"), &stream);
    }
}

#[test]
fn addresses_that_are_none() {
    let folder = Folder::new();
    folder.write("in.h264", &small_streams()[0].1);
    let rows: [(&[&str], i32, &str); 8] = [
        (
            &["inspect", "udp://127.0.0.1"],
            2,
            "give a live stream as udp://",
        ),
        (&["inspect", "udp://:0"], 2, "a port from 1 to 65534"),
        (&["inspect", "udp://:65535"], 2, "a port from 1 to 65534"),
        (&["inspect", "udp://::1:5004"], 2, "udp://[::1]:5004"),
        (&["send", "in.h264", "udp://:5004"], 2, "name a host"),
        (
            &["send", "in.h264", "udp://127.0.0.1:5004", "--port", "5006"],
            2,
            "the address has the port",
        ),
        (
            &["inspect", "in.pcap", "--for", "3"],
            2,
            "--for is of live streams",
        ),
        (
            &["inspect", "udp://:5004", "--for", "-3"],
            2,
            "--for -3: give seconds",
        ),
    ];
    for (words, status, said) in rows {
        folder.run(words).says(status, &[said]);
    }
    let (port, _taken) = sockets();
    let at = format!("udp://127.0.0.1:{port}");
    folder
        .run(&["inspect", &at])
        .says(1, &["nothing can be received there"]);
}
