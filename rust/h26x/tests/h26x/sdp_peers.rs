//! Session descriptions of and for FFmpeg and GStreamer, over UDP on this machine; left out where they are missing.
//! What is sent has no parameter sets: they come by the description alone.

use crate::peers::{
    Peer, captured, check_units, packets_from, packets_in, send_to, small_streams, sockets,
    tells_sockets,
};
use crate::program::{Folder, cut};

/// A stream without its parameter sets (H.264, table 7-1; H.265, table 7-1).
fn without_sets(codec: &str, stream: &[u8]) -> Vec<u8> {
    let is_set = |unit: &[u8]| match codec {
        "h264" => matches!(unit[0] & 0x1f, 7 | 8),
        _ => matches!(unit[0] >> 1 & 0x3f, 32..=34),
    };
    let units = cut(stream).into_iter().filter(|unit| !is_set(unit));
    units
        .flat_map(|unit| [vec![0, 0, 1], unit].concat())
        .collect()
}

/// Sends a stream into a capture, as it is described to be at a port, and answers the packets without its sets, and the
/// `a=fmtp` value.
#[track_caller]
fn described(folder: &Folder, codec: &str, stream: &[u8], port: u16) -> (Vec<Vec<u8>>, String) {
    let [input, bare] = ["in", "bare"].map(|it| format!("{it}.{codec}"));
    folder.write(&input, stream);
    folder.write(&bare, &without_sets(codec, stream));
    let port = port.to_string();
    let send = [
        "send", &input, "out.pcap", "--port", &port, "--sdp", "out.sdp",
    ];
    folder.run(&send).says(0, &[]);
    folder.run(&["send", &bare, "bare.pcap"]).says(0, &[]);
    let text = String::from_utf8(folder.read("out.sdp")).expect("text");
    let format = text.lines().find_map(|it| it.strip_prefix("a=fmtp:96 "));
    (
        packets_in(&folder.read("bare.pcap")),
        format.expect("a format").into(),
    )
}

/// Has FFmpeg receive what is described, and compares the units; false where it is missing or can't.
#[track_caller]
fn ffmpeg_receives(codec: &str, stream: &[u8]) -> bool {
    let folder = Folder::new();
    let (port, free) = sockets();
    let (packets, _) = described(&folder, codec, stream, port);
    drop(free);
    let format = if codec == "h264" { "h264" } else { "hevc" };
    let command = format!(
        "-v error -protocol_whitelist file,udp,rtp -localaddr 127.0.0.1 -i out.sdp \
         -c copy -bsf:v dump_extra=freq=keyframe -f {format} back"
    );
    let words: Vec<&str> = command.split_whitespace().collect();
    let Some(mut peer) = Peer::start(&folder, "ffmpeg", &words) else {
        return false;
    };
    if !peer.listens(port) || !peer.listens(port + 1) {
        return false;
    }
    send_to(port, &packets);
    // The sender's report that it has nothing to report, and that it leaves (RFC 3550, 6.1 and 6.6).
    let ssrc = &packets[0][8..12];
    let bye = [&[0x80, 201, 0, 1], ssrc, &[0x81, 203, 0, 1], ssrc].concat();
    send_to(port + 1, &[bye]);
    assert!(peer.end(), "ffmpeg takes them");
    check_units(codec, &folder.read("back"), stream);
    true
}

#[test]
fn what_ffmpeg_receives_by_a_description() {
    for (codec, stream) in small_streams() {
        if !tells_sockets() || !ffmpeg_receives(codec, &stream) {
            return;
        }
    }
}

/// The parameters of an `a=fmtp` value as fields of GStreamer's caps.
fn caps_of(codec: &str, format: &str) -> String {
    let fields = format.split(';').map(|it| {
        let (name, value) = it.split_once('=').expect("a parameter");
        format!(r#",{name}=(string)\"{value}\""#)
    });
    let name = codec.to_uppercase();
    let front =
        format!("application/x-rtp,media=video,clock-rate=90000,encoding-name={name},payload=96");
    fields.fold(front, |caps, field| caps + &field)
}

/// The same of GStreamer, which on a busy machine may pass over what came before its pipeline plays, and waits for it
/// then: it is sent once more.
#[track_caller]
fn gstreamer_receives(codec: &str, stream: &[u8]) -> bool {
    let told = (0..4).find_map(|_| gstreamer_takes(codec, stream));
    told.expect("GStreamer ends")
}

/// The same at one go; `None` where it waits for more.
#[track_caller]
fn gstreamer_takes(codec: &str, stream: &[u8]) -> Option<bool> {
    let folder = Folder::new();
    let (port, free) = sockets();
    let (packets, format) = described(&folder, codec, stream, port);
    drop(free);
    let (caps, count) = (caps_of(codec, &format), packets.len());
    let pipeline = format!(
        "udpsrc address=127.0.0.1 port={port} num-buffers={count} caps=\"{caps}\" ! \
         rtp{codec}depay ! {codec}parse ! video/x-{codec},stream-format=byte-stream ! \
         filesink location=back"
    );
    let words: Vec<&str> = pipeline.split_whitespace().collect();
    let Some(mut peer) = Peer::start(&folder, "gst-launch-1.0", &words) else {
        return Some(false);
    };
    if !peer.listens(port) {
        return Some(false);
    }
    send_to(port, &packets);
    if !peer.ends() {
        return None;
    }
    assert!(peer.end(), "GStreamer takes them");
    check_units(codec, &folder.read("back"), stream);
    Some(true)
}

#[test]
fn what_gstreamer_receives_by_a_description() {
    for (codec, stream) in small_streams() {
        if !tells_sockets() || !gstreamer_receives(codec, &stream) {
            return;
        }
    }
}

/// Runs FFmpeg in a folder; false where it is missing or can't.
#[track_caller]
fn ffmpeg(folder: &Folder, command: &str) -> bool {
    let words: Vec<&str> = command.split_whitespace().collect();
    let went_well = Peer::start(folder, "ffmpeg", &words).map(Peer::end);
    if went_well == Some(false) {
        eprintln!("left out, since ffmpeg can't");
    }
    went_well == Some(true)
}

/// FFmpeg sends out of an MP4 file, which has the sets of its encoder beside the units, and describes what it sends.
#[test]
fn what_ffmpeg_describes() {
    // x265 tells its settings beside the units, which no description has.
    let encoders = [
        ("h264", "libx264 -g 10", "h264"),
        (
            "h265",
            "libx265 -x265-params log-level=none:info=0:keyint=10",
            "hevc",
        ),
    ];
    for (codec, encoder, form) in encoders {
        let folder = Folder::new();
        let encode = format!(
            "-v error -f lavfi -i testsrc=size=160x128:rate=25:duration=1 -pix_fmt yuv420p -preset ultrafast \
             -c:v {encoder} in.mp4"
        );
        let wanted = format!("-v error -i in.mp4 -c copy -f {form} wanted");
        if !ffmpeg(&folder, &encode) || !ffmpeg(&folder, &wanted) {
            return;
        }
        let (port, [socket, _control]) = sockets();
        let to = format!("rtp://127.0.0.1:{port}");
        let send = format!("-v error -i in.mp4 -c copy -f rtp -sdp_file in.sdp {to}");
        let send: Vec<&str> = send.split(' ').collect();
        let Some(packets) = packets_from(&socket, &folder, "ffmpeg", &send) else {
            return;
        };
        folder.write("in.pcap", &captured(&packets));
        let back = format!("back.{codec}");
        // It was sent to another port than it is captured at.
        let receive = [
            "receive", "in.pcap", &back, "--sdp", "in.sdp", "--port", "5004",
        ];
        let sets = if codec == "h264" { 2 } else { 3 };
        let said = format!("{sets} parameter sets of the session description");
        folder.run(&receive).says(0, &[&said]);
        check_units(codec, &folder.read(&back), &folder.read("wanted"));
        let inspect = [
            "inspect",
            "in.pcap",
            "--summary",
            "--sdp",
            "in.sdp",
            "--port",
            "5004",
        ];
        folder
            .run(&inspect)
            .says(0, &["25 access units, 3 keyframes"]);
    }
}
