//! Decoding order numbers that packets bear, and the user doesn't say so, or the other way about.

use crate::build::{Rtp, pcap_with};
use crate::program::{Folder, small_streams};

/// Receives what fails with this advice, and leaves no file.
#[track_caller]
fn advises(folder: &Folder, codec: &str, options: &[&str], advice: &str) {
    let before = folder.names();
    let back = format!("back.{codec}");
    let ran = folder.run(&[&["receive", "out.pcap", &back], options].concat());
    ran.says(1, &["out.pcap: ", advice, "nothing is written"]);
    assert_eq!(folder.names(), before, "{ran:#?}");
    let inspect = ["inspect", "out.pcap", "--summary", "--codec", codec];
    let ran = folder.run(&[&inspect, options].concat());
    assert_eq!(ran.status, 3, "{ran:#?}");
    assert!(ran.out.contains(advice), "{ran:#?}");
}

#[test]
fn small_streams_taken_the_other_way() {
    for (codec, stream) in &small_streams()[1..] {
        for mtu in ["60", "200", "1200", "9000"] {
            let folder = Folder::new();
            let input = format!("in.{codec}");
            folder.write(&input, stream);
            let send = ["send", &input, "out.pcap", "--mtu", mtu];
            folder.run(&[&send[..], &["--donl"]].concat()).says(0, &[]);
            advises(&folder, codec, &[], "try --donl");
            folder.run(&send).says(0, &[]);
            advises(&folder, codec, &["--donl"], "try it without --donl");
        }
    }
}

/// Numbered slices of H.265, without aggregates: what stands behind each header rises.
#[test]
fn single_packets_alone() {
    for first in [0u16, 65_530] {
        let slice = |i: u16| {
            let [high, low] = first.wrapping_add(i).to_be_bytes();
            Rtp::new(
                i,
                u32::from(i) * 90,
                true,
                &[0x02, 1, high, low, 0xd0, 9, 7],
            )
        };
        let packets: Vec<Rtp> = (0..40).map(slice).collect();
        let folder = Folder::new();
        folder.write("out.pcap", &pcap_with(&packets));
        advises(&folder, "h265", &[], "try --donl");
        folder
            .run(&["receive", "out.pcap", "back.h265", "--donl"])
            .says(0, &[]);
    }
}

/// Slices that begin as encoders write them, with a picture order count that rises (H.265, 7.3.6.1), are
/// none with numbers; and numbers that rise by more than one, or are sent in another order, are.
#[test]
fn what_is_as_it_is_said() {
    let folder = Folder::new();
    let slice = |i: u16| {
        let count = 0xd000 | i << 3;
        let [high, low] = count.to_be_bytes();
        Rtp::new(i, u32::from(i) * 90, true, &[0x02, 1, high, low, 7, 9])
    };
    let packets: Vec<Rtp> = (0..60).map(slice).collect();
    folder.write("out.pcap", &pcap_with(&packets));
    folder
        .run(&["receive", "out.pcap", "back.h265"])
        .says(0, &[]);
    let numbered = |i: u16| {
        let number = i / 2 * 6 + (1 - i % 2);
        let [high, low] = number.to_be_bytes();
        Rtp::new(
            i,
            u32::from(i) * 90,
            true,
            &[0x02, 1, high, low, 0xd0, 9, 7],
        )
    };
    let packets: Vec<Rtp> = (0..60).map(numbered).collect();
    folder.write("out.pcap", &pcap_with(&packets));
    folder
        .run(&["receive", "out.pcap", "back.h265", "--donl"])
        .says(0, &[]);
}
