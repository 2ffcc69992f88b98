//! What `receive` writes as MP4, and which access units: with the times of pictures, as FFmpeg and GStreamer read
//! it, and by the boxes of ISO/IEC 14496-12.

use crate::build::{Rtp, pcap_with};
use crate::peers::{Peer, captured, check_units, packets_in, small_streams};
use crate::program::{Folder, cut};
use std::process::Command;

/// The boxes of a file, or within one: names with what is in them.
fn boxes(mut bytes: &[u8]) -> Vec<(String, &[u8])> {
    let mut all = Vec::new();
    while !bytes.is_empty() {
        let len = u32::from_be_bytes(bytes[..4].try_into().expect("a length")) as usize;
        let name = String::from_utf8(bytes[4..8].to_vec()).expect("a name");
        all.push((name, &bytes[8..len]));
        bytes = &bytes[len..];
    }
    all
}

fn within<'a>(bytes: &'a [u8], name: &str) -> &'a [u8] {
    let found = boxes(bytes).into_iter().find(|it| it.0 == name);
    found.unwrap_or_else(|| panic!("no {name}")).1
}

/// A sample: when it is decoded and shown, how long it lasts, whether something can begin there, its bytes.
#[derive(Debug)]
struct Sample {
    decoded: i64,
    shown: i64,
    lasts: i64,
    is_key: bool,
    bytes: Vec<u8>,
}

/// The samples of all fragments (14496-12, 8.8.7, 8.8.8 and 8.8.12).
fn samples(file: &[u8]) -> Vec<Sample> {
    let mut all = Vec::new();
    let tops = boxes(file);
    assert_eq!((tops[0].0.as_str(), tops[1].0.as_str()), ("ftyp", "moov"));
    for pair in tops[2..].chunks(2) {
        let [(moof, fragment), (mdat, data)] = pair else {
            panic!("a pair");
        };
        assert_eq!((moof.as_str(), mdat.as_str()), ("moof", "mdat"));
        let traf = within(fragment, "traf");
        let decoded = within(traf, "tfdt")[4..12].try_into().expect("a time");
        let mut decoded = i64::from_be_bytes(decoded);
        let run = within(traf, "trun");
        let words: Vec<u32> = run
            .chunks_exact(4)
            .map(|it| u32::from_be_bytes(it.try_into().expect("a word")))
            .collect();
        assert_eq!(
            words[0], 0x0100_0f01,
            "version 1, and all that there is of each sample"
        );
        // From the first byte of moof on; the header of mdat has eight.
        assert_eq!(words[2] as usize, 8 + fragment.len() + 8);
        let mut rest = *data;
        for sample in words[3..].chunks_exact(4) {
            let (bytes, behind) = rest.split_at(sample[1] as usize);
            all.push(Sample {
                decoded,
                shown: decoded + i64::from(sample[3] as i32),
                lasts: sample[0].into(),
                is_key: sample[2] == 0x0200_0000,
                bytes: bytes.to_vec(),
            });
            decoded += i64::from(sample[0]);
            rest = behind;
        }
        assert_eq!(words[3..].len(), 4 * words[1] as usize);
        assert!(rest.is_empty(), "all data is of samples");
    }
    all
}

/// A picture that was lost leaves its time: 50 of 3600 ticks, of which the 21st never came.
#[test]
fn a_lost_picture_leaves_its_time() {
    let folder = Folder::new();
    folder.write("in.h264", &small_streams()[0].1);
    folder
        .run(&["send", "in.h264", "all.pcap"])
        .says(0, &["50 access units"]);
    let timestamp = |it: &[u8]| u32::from_be_bytes([it[4], it[5], it[6], it[7]]);
    let all = packets_in(&folder.read("all.pcap"));
    let came: Vec<Vec<u8>> = all
        .into_iter()
        .filter(|it| timestamp(it) != 20 * 3600)
        .collect();
    folder.write("in.pcap", &captured(&came));
    folder
        .run(&["receive", "in.pcap", "out.mp4"])
        .says(3, &["49 access units"]);
    let samples = samples(&folder.read("out.mp4"));
    assert_eq!(samples.len(), 49);
    let times: Vec<i64> = samples.iter().map(|it| it.shown).collect();
    let wanted: Vec<i64> = (0..50).filter(|it| *it != 20).map(|it| it * 3600).collect();
    assert_eq!(times, wanted);
    let lasts: i64 = samples.iter().map(|it| it.lasts).sum();
    assert_eq!(lasts, 50 * 3600);
    assert!(samples.iter().all(|it| it.decoded == it.shown));
    assert!(samples[0].is_key && !samples[1].is_key);
    let stream = cut(&small_streams()[0].1);
    let first = [&(stream[0].len() as u32).to_be_bytes()[..], &stream[0]].concat();
    assert!(
        samples[0].bytes.starts_with(&first),
        "units behind lengths of four bytes"
    );
}

/// Pictures that are sent in another order than they are shown: times of decoding rise, and none is later than that
/// of showing. The next keyframe comes 7200 ticks late.
#[test]
fn pictures_in_the_order_of_decoding() {
    let sets = &cut(&small_streams()[0].1)[..2];
    let idr: &[u8] = &[0x65, 0x88, 1];
    let slice: &[u8] = &[0x41, 0x9a, 1];
    let sent: [(u32, &[u8]); 6] = [
        (0, idr),
        (3, slice),
        (1, slice),
        (2, slice),
        (6, idr),
        (7, slice),
    ];
    let mut packets: Vec<Rtp> = Vec::new();
    for (place, (shown, payload)) in (0..).zip(sent) {
        for set in sets.iter().filter(|_| place == 0) {
            packets.push(Rtp::new(packets.len() as u16, 900, false, set));
        }
        packets.push(Rtp::new(
            packets.len() as u16,
            900 + shown * 3600,
            true,
            payload,
        ));
    }
    let folder = Folder::new();
    folder.write("in.pcap", &pcap_with(&packets));
    folder
        .run(&["receive", "in.pcap", "out.mp4"])
        .says(0, &["6 access units"]);
    let samples = samples(&folder.read("out.mp4"));
    let decoded: Vec<i64> = samples.iter().map(|it| it.decoded / 3600).collect();
    assert_eq!(decoded, [0, 1, 2, 3, 6, 7]);
    let shown: Vec<i64> = samples
        .iter()
        .map(|it| it.shown - samples[0].shown)
        .collect();
    assert_eq!(shown, [0, 3, 1, 2, 6, 7].map(|it| it * 3600));
    assert!(
        samples.iter().all(|it| it.shown >= it.decoded),
        "{samples:?}"
    );
    let keys: Vec<bool> = samples.iter().map(|it| it.is_key).collect();
    assert_eq!(keys, [true, false, false, false, true, false]);
}

/// A picture behind a keyframe that is shown before one of the fragment before: times of decoding rise still.
#[test]
fn fragments_that_overlap() {
    let sets = &cut(&small_streams()[0].1)[..2];
    let sent: [(u32, &[u8]); 4] = [
        (0, &[0x65, 0x88, 1]),
        (3, &[0x41, 0x9a, 1]),
        (4, &[0x65, 0x88, 1]),
        (2, &[0x41, 0x9a, 1]),
    ];
    let mut packets: Vec<Rtp> = (0..2)
        .map(|at| Rtp::new(at, 0, false, &sets[usize::from(at)]))
        .collect();
    packets.extend(
        (2..)
            .zip(sent)
            .map(|(at, (shown, payload))| Rtp::new(at, shown * 3600, true, payload)),
    );
    let folder = Folder::new();
    folder.write("in.pcap", &pcap_with(&packets));
    folder
        .run(&["receive", "in.pcap", "out.mp4"])
        .says(0, &["4 access units"]);
    let file = folder.read("out.mp4");
    let samples = samples(&file);
    assert!(
        samples.windows(2).all(|it| it[0].decoded < it[1].decoded),
        "{samples:?}"
    );
    let shown: Vec<i64> = samples
        .iter()
        .map(|it| it.shown - samples[0].shown)
        .collect();
    assert_eq!(shown, [0, 3, 4, 2].map(|it| it * 3600));
    // The size of the pictures, 24 bytes behind the name of the sample's entry (14496-12, 12.1.3).
    let entry = file
        .windows(4)
        .position(|it| it == b"avc3")
        .expect("an entry");
    assert_eq!(file[entry + 28..entry + 32], [0, 32, 0, 32]);
}

/// Timestamps that go round at 2^32, and such that stand still: there what the capture tells counts.
#[test]
fn timestamps_that_are_odd() {
    let sets = &cut(&small_streams()[0].1)[..2];
    let slice: &[u8] = &[0x41, 0x9a, 1];
    for (step, wanted) in [
        (3000, vec![0, 3000, 6000, 9000]),
        (0, vec![0, 90, 180, 270]),
    ] {
        let mut packets: Vec<Rtp> = (0..2)
            .map(|at| Rtp::new(at, u32::MAX - 4000, false, &sets[usize::from(at)]))
            .collect();
        packets.extend((2..6).map(|at| {
            let timestamp = (u32::MAX - 4000).wrapping_add(u32::from(at - 2) * step);
            Rtp::new(at, timestamp, true, slice)
        }));
        let folder = Folder::new();
        folder.write("in.pcap", &pcap_with(&packets));
        folder
            .run(&["receive", "in.pcap", "out.mp4"])
            .says(0, &["4 access units"]);
        let times: Vec<i64> = samples(&folder.read("out.mp4"))
            .iter()
            .map(|it| it.shown)
            .collect();
        assert_eq!(times, wanted, "{step}");
    }
}

/// Slices that begin no picture, each with a marker and all with one timestamp, are one sample, but not without end.
#[test]
fn a_picture_without_end() {
    let sets = &cut(&small_streams()[0].1)[..2];
    let mut packets: Vec<Rtp> = (0..2)
        .map(|at| Rtp::new(at, 0, false, &sets[usize::from(at)]))
        .collect();
    let slice = [&[0x41, 0x40][..], &[7; 60_000]].concat();
    packets.extend((2..602).map(|at| Rtp::new(at, 0, true, &slice)));
    let folder = Folder::new();
    folder.write("in.pcap", &pcap_with(&packets));
    folder
        .run(&["receive", "in.pcap", "out.mp4"])
        .says(0, &["4 access units"]);
    let samples = samples(&folder.read("out.mp4"));
    let lens: Vec<usize> = samples.iter().map(|it| it.bytes.len()).collect();
    let all = 600 * (4 + slice.len()) + 8 + sets[0].len() + sets[1].len();
    assert_eq!(lens.iter().sum::<usize>(), all);
    assert!(
        lens.len() == 2 && lens[0] > 32 << 20 && lens[0] < 33 << 20,
        "{lens:?}"
    );
}

/// FFmpeg reads the size, and as many pictures as there are; GStreamer gives out the same units.
#[test]
fn what_others_read() {
    for (codec, stream) in small_streams() {
        let folder = Folder::new();
        let name = format!("in.{codec}");
        folder.write(&name, &stream);
        folder.run(&["send", &name, "in.pcap"]).says(0, &[]);
        folder.run(&["receive", "in.pcap", "out.mp4"]).says(0, &[]);
        let told = |file: &str| {
            let words = "-v error -count_frames -of csv=p=0 -show_entries stream=codec_name,width,height,nb_read_frames";
            let ran = Command::new("ffprobe")
                .args(words.split(' '))
                .arg(file)
                .current_dir(folder.path(""))
                .output();
            ran.ok()
                .map(|it| (String::from_utf8_lossy(&it.stdout).into_owned(), it.stderr))
        };
        let Some((of_recording, errors)) = told("out.mp4") else {
            eprintln!("left out, since ffprobe is missing");
            return;
        };
        assert!(errors.is_empty(), "{}", String::from_utf8_lossy(&errors));
        let (of_stream, _) = told(&name).expect("ffprobe");
        assert_eq!(of_recording, of_stream);
        let pipeline = format!(
            "filesrc location=out.mp4 ! qtdemux ! {codec}parse ! video/x-{codec},stream-format=byte-stream ! \
             filesink location=back"
        );
        let words: Vec<&str> = pipeline.split_whitespace().collect();
        let Some(peer) = Peer::start(&folder, "gst-launch-1.0", &words) else {
            return;
        };
        assert!(peer.end(), "GStreamer reads it");
        check_units(codec, &folder.read("back"), &stream);
    }
}

#[test]
fn what_is_not_written() {
    let folder = Folder::new();
    let slices: Vec<Rtp> = (0..9)
        .map(|at| Rtp::new(at, u32::from(at) * 90, true, &[0x41, 0x9a, 1]))
        .collect();
    folder.write("in.pcap", &pcap_with(&slices));
    for name in [
        "out.mkv", "out.webm", "out.MOV", "out.avi", "out.ivf", "out.ts", "out.pcap",
    ] {
        folder
            .run(&["receive", "in.pcap", name])
            .says(2, &["can't be written; name a file that ends with .mp4"]);
    }
    folder
        .run(&["receive", "in.pcap", "out.mp4", "--lengths"])
        .says(2, &["--lengths: MP4 has"]);
    folder
        .run(&["receive", "in.pcap", "out.mp4"])
        .says(1, &["an MP4 file needs the parameter sets"]);
    assert_eq!(folder.names(), ["in.pcap"]);
}

/// Of H.266 the record has what its set says of one sub-layer, Main 10 at level 3.1, no constraints, 320 by 184 samples
/// of ten bits, of which four lines are cut off (H.266, 7.3.2.4; ISO/IEC 14496-15, 11.2.4.2), and the sets.
#[test]
fn a_recording_of_h266() {
    let sps: &[u8] = &[
        0, 0x79, 0x00, 0x0d, 0x02, 0x33, 0x80, 0x00, 0x00, 0x28, 0x20, 0x2e, 0x7d, 0x9c,
    ];
    let pps: &[u8] = &[0, 0x81, 1, 2];
    // An IDR picture and two others, each in a slice with its header.
    let sent: [(u32, bool, &[u8]); 5] = [
        (900, false, sps),
        (900, false, pps),
        (900, true, &[0, 0x39, 0x80, 1]),
        (4500, true, &[0, 0x01, 0x80, 1]),
        (8100, true, &[0, 0x01, 0x80, 1]),
    ];
    let packets = (0..).zip(sent);
    let packets = packets.map(|(at, (time, marker, unit))| Rtp::new(at, time, marker, unit));
    let folder = Folder::new();
    folder.write("in.pcap", &pcap_with(&packets.collect::<Vec<Rtp>>()));
    let words = ["receive", "in.pcap", "out.mp4", "--codec", "h266"];
    folder.run(&words).says(0, &["3 access units, 1 keyframe"]);
    let file = folder.read("out.mp4");
    let place = |name: &[u8]| file.windows(4).position(|it| it == name).expect("a box");
    let entry = place(b"vvi1");
    assert_eq!(file[entry + 28..entry + 32], [1, 0x40, 0, 180]);
    let record = [
        &[
            0, 0, 0, 0, 0xff, 0, 0x11, 0x5f, 1, 2, 0x33, 0x80, 0, 1, 0x40, 0, 0xb8, 0, 0,
        ][..],
        &[2, 15, 0, 1, 0, sps.len() as u8],
        sps,
        &[16, 0, 1, 0, pps.len() as u8],
        pps,
    ]
    .concat();
    assert!(file[place(b"vvcC") + 4..].starts_with(&record));
    let samples = samples(&file);
    let shown: Vec<i64> = samples.iter().map(|it| it.shown).collect();
    assert_eq!(shown, [0, 3600, 7200]);
    assert!(samples[0].is_key && !samples[1].is_key);
    assert_eq!(samples[1].bytes, [0, 0, 0, 4, 0, 1, 0x80, 1]);
    // FFmpeg reads the samples, also where it doesn't know the codec.
    let mut ffprobe = Command::new("ffprobe");
    ffprobe.args("-v quiet -of csv=p=0 -show_entries packet=pts,size".split(' '));
    let Ok(ran) = ffprobe.arg(folder.path("out.mp4")).output() else {
        eprintln!("left out, since ffprobe is missing");
        return;
    };
    let sets = 8 + sps.len() + pps.len();
    let wanted = format!("0,{}\n3600,8\n7200,8\n", sets + 8);
    assert_eq!(String::from_utf8_lossy(&ran.stdout), wanted);
}

/// Of a slice, a keyframe with its parameter sets, a slice, a gap and a slice the keyframe and what follows it are clean.
#[test]
fn clean_access_units_alone() {
    let key = [
        0x78, 0, 4, 0x67, 0x42, 0xc0, 0x1f, 0, 2, 0x68, 0xce, 0, 3, 0x65, 0x88, 2,
    ];
    let payloads: [(u16, &[u8]); 5] = [
        (1, &[0x41, 0x9a, 1]),
        (2, &key),
        (3, &[0x41, 0x9a, 3]),
        (5, &[0x41, 0x9a, 5]),
        (6, &[0x41, 0x9a, 6]),
    ];
    let packet = |(at, payload): (u16, &[u8])| Rtp::new(at, u32::from(at) * 90, true, payload);
    let folder = Folder::new();
    folder.write("in.pcap", &pcap_with(&payloads.map(packet)));
    folder
        .run(&["receive", "in.pcap", "out.h264", "--clean"])
        .says(3, &["5 access units", "28 bytes written"]);
    let written = [
        0, 0, 0, 1, 0x67, 0x42, 0xc0, 0x1f, 0, 0, 0, 1, 0x68, 0xce, 0, 0, 0, 1, 0x65, 0x88, 2, 0,
        0, 0, 1, 0x41, 0x9a, 3,
    ];
    assert_eq!(folder.read("out.h264"), written);
}

/// The parameter sets of a session description are in the front of the file.
#[test]
fn sets_of_a_description() {
    let folder = Folder::new();
    let units = cut(&small_streams()[0].1);
    folder.write("in.h264", &small_streams()[0].1);
    folder
        .run(&["send", "in.h264", "all.pcap", "--sdp", "in.sdp"])
        .says(0, &[]);
    let slice = |at: u16| Rtp::new(at, u32::from(at) * 90, true, &[0x41, 0x9a, 1]);
    folder.write(
        "in.pcap",
        &pcap_with(&(0..9).map(slice).collect::<Vec<_>>()),
    );
    folder
        .run(&["receive", "in.pcap", "--sdp", "in.sdp", "out.mp4"])
        .says(0, &["9 access units"]);
    let file = folder.read("out.mp4");
    let config = [
        &[0xe1, 0, units[0].len() as u8][..],
        &units[0],
        &[1, 0, units[1].len() as u8],
        &units[1],
    ]
    .concat();
    assert!(
        file.windows(config.len()).any(|it| it == config),
        "14496-15, 5.3.3.1"
    );
    assert_eq!(samples(&file).len(), 9);
}
