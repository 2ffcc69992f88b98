//! The page of pictures that `inspect --html` writes.

use crate::build::{Order, Rtp, frame, pcap_of, pcap_with};
use crate::program::Folder;
use serde_json::{Value, json};

const IDR: &[u8] = &[0x65, 0x88, 1, 2];
const SLICE: &[u8] = &[0x41, 0x9a, 1];

/// The object that a page draws.
pub fn data(page: &str) -> Value {
    let (_, behind) = page.split_once("id=\"data\">").expect("data");
    let (data, _) = behind.split_once("</script>").expect("its end");
    serde_json::from_str(data).expect("JSON")
}

pub fn sum(column: &Value) -> u64 {
    let numbers = column.as_array().expect("a column");
    numbers.iter().filter_map(Value::as_u64).sum()
}

/// Ten pictures at a millisecond each: a keyframe in two fragments, slices, of which one is lost, one comes
/// twice, two are swapped and one is refused.
fn packets() -> Vec<Rtp> {
    let slice = |at: u16| Rtp::new(at, u32::from(at) * 90, true, SLICE);
    let mut packets = vec![
        Rtp::new(0, 90, false, &[0x7c, 0x85, 0x88]),
        Rtp::new(1, 90, true, &[0x7c, 0x45, 7]),
    ];
    packets.extend([2, 4, 5, 7, 6, 8, 8, 9, 10].map(slice));
    packets[9].payload = vec![0x7c];
    packets
}

#[test]
fn what_a_page_shows() {
    let folder = Folder::new();
    folder.write("in.pcap", &pcap_with(&packets()));
    let ran = folder.run(&["inspect", "in.pcap", "--html", "out.html", "--window", "2"]);
    ran.says(3, &["10 packets of", "lost: 1 packet: 1 before 4"]);
    assert!(!ran.out.contains("  seq "), "{ran:?}");
    let page = String::from_utf8(folder.read("out.html")).expect("text");
    let data = data(&page);
    assert_eq!(data["file"], "in.pcap");
    let [stream] = &data["streams"].as_array().expect("streams")[..] else {
        panic!("one stream");
    };
    let columns = &stream["columns"];
    let counts = [
        ("fragments", 2),
        ("single", 7),
        ("lost", 1),
        ("repeated", 1),
        ("reordered", 1),
        ("recovered", 0),
        ("refused", 1),
        ("aggregates", 0),
        ("keyframe", 1),
        ("broken", 2),
    ];
    for (name, count) in counts {
        assert_eq!(sum(&columns[name]), count, "{name}: {columns}");
    }
    assert_eq!(columns["bytes"].as_array().map(Vec::len), Some(11));
    assert_eq!(columns["keyframe_greatest"][1], 7);
    // In ticks: 90 too late, in time, 90 too early, in time, 90 too early (RFC 3550, A.8): 5.625,
    // 5.273, 10.569, 9.908, 14.914, of which 90 are a millisecond.
    assert_eq!(columns["jitter"][5], json!(0.166));
    assert_eq!(stream["totals"]["lost"], 1);
    let told = stream["totals"]["told"].to_string();
    assert!(told.contains("lost: 1 packet: 1 before 4"), "{told}");
}

/// Nothing of a page is anywhere else, and a file's name ends no script.
#[test]
fn a_page_stands_alone() {
    let folder = Folder::new();
    let name = "<!--<script></script>.pcap";
    std::fs::create_dir(folder.path("<!--<script><")).expect("a folder");
    folder.write(name, &pcap_with(&packets()));
    folder
        .run(&["inspect", name, "--html", "out.html"])
        .says(3, &["10 packets of"]);
    let page = String::from_utf8(folder.read("out.html")).expect("text");
    assert_eq!(data(&page)["file"], name);
    assert_eq!(
        page.matches("</script>").count(),
        2,
        "the two scripts of the page"
    );
    let others = page.replace("http://www.w3.org/2000/svg", "");
    for word in ["://", "src=", "@import", "url(", "fetch("] {
        assert!(!others.contains(word), "{word}");
    }
    assert!(page.contains("prefers-color-scheme: dark"));
}

/// Packets an hour apart are summed up in as many parts as a picture has room for, and none is left out.
#[test]
fn a_long_capture_is_summed_up() {
    let frames: Vec<Vec<u8>> = (0..5000_u16)
        .map(|at| {
            frame(&Rtp::new(
                at,
                u32::from(at) * 90_000,
                true,
                if at == 0 { IDR } else { SLICE },
            ))
        })
        .collect();
    let mut capture = pcap_of(Order::Little, 0xa1b2_c3d4, 1, &frames);
    let record = 16 + frames[0].len();
    let mut at = 24 + record + 1;
    let mut seconds = 1_700_000_000_u32;
    while at + 3 < capture.len() {
        seconds += 3600;
        at -= 1;
        capture[at..at + 4].copy_from_slice(&seconds.to_le_bytes());
        at += record;
    }
    let folder = Folder::new();
    folder.write("in.pcap", &capture);
    folder
        .run(&["inspect", "in.pcap", "--html", "out.html"])
        .says(0, &["5000 packets of"]);
    let page = String::from_utf8(folder.read("out.html")).expect("text");
    let stream = &data(&page)["streams"][0];
    let parts = stream["columns"]["single"]
        .as_array()
        .expect("a column")
        .len();
    assert!((512..=1024).contains(&parts), "{parts} parts");
    assert_eq!(sum(&stream["columns"]["single"]), 5000);
    // As many packets in each part as its length has hours, or one less.
    let width = stream["width"].as_f64().expect("a number");
    let all = stream["columns"]["single"].as_array().expect("a column");
    let is_even = |it: &Value| (it.as_f64().expect("a number") - width / 3600.0).abs() < 1.0;
    assert!(all[..parts - 1].iter().all(is_even), "{width}: {all:?}");
    assert!(stream["seconds"].as_f64().expect("a number") >= 4999.0 * 3600.0);
    assert!(page.len() < 300_000, "{} bytes", page.len());
}

/// Each of all streams has a section; without a file there is no page, and none stands where it fails.
#[test]
fn which_pages_are_written() {
    let folder = Folder::new();
    let other = |it: Rtp| {
        let mut frame = frame(&it);
        frame[14 + 20 + 3] ^= 1;
        frame
    };
    let frames: Vec<Vec<u8>> = packets()
        .iter()
        .map(frame)
        .chain(packets().into_iter().map(other))
        .collect();
    folder.write("in.pcap", &pcap_of(Order::Little, 0xa1b2_c3d4, 1, &frames));
    folder
        .run(&["inspect", "--all", "in.pcap", "--html", "out.html"])
        .says(3, &["port 5004", "port 5005"]);
    let page = String::from_utf8(folder.read("out.html")).expect("text");
    assert_eq!(data(&page)["streams"].as_array().map(Vec::len), Some(2));
    folder
        .run(&["inspect", "in.pcap", "--html", "-"])
        .says(2, &["--html -: "]);
    folder
        .run(&["inspect", "in.pcap", "--html", "in.pcap"])
        .says(1, &["this is the input too"]);
    folder
        .run(&["inspect", "in.pcap", "--html", "new.html", "--ssrc", "1"])
        .says(1, &["none of its RTP streams"]);
    assert_eq!(folder.names(), ["in.pcap", "out.html"]);
    let json = folder.run(&["inspect", "in.pcap", "--json", "--html", "out.html"]);
    assert!(
        json.out.starts_with('{') && json.out.lines().count() > 11,
        "{json:?}"
    );
}
