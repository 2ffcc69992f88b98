//! Payload types and format parameters of SDP: lines of real ends, and each call.

use crate::sdp::*;
use crate::{Codec, H264LevelIdc, H264Profile, H265ProfileTierLevel, H266ProfileTierLevel};
use std::collections::HashSet;
use std::fmt::Debug;

/// A line is written as this, in the RFC's order, and that again as it is.
#[track_caller]
fn written<P: Parameter>(line: &str, wanted: &str) -> CodecParameters<P> {
    let format: CodecParameters<P> = line.parse().expect(line);
    assert_eq!(format.to_string(), wanted);
    assert_eq!(wanted.parse().as_ref(), Ok(&format));
    format
}

/// As Chromium, Firefox and Safari write them: profile-level-id and packetization-mode of their offers of H.264, in
/// two orders.
#[test]
fn offers_of_browsers() {
    use PacketizationMode::{NonInterleaved, SingleNalUnit};
    let ids = [
        ("42001f", H264Profile::Baseline),
        ("42e01f", H264Profile::ConstrainedBaseline),
        ("4d001f", H264Profile::Main),
        ("64001f", H264Profile::High),
        ("640c1f", H264Profile::ConstrainedHigh),
        ("f4001f", H264Profile::High444Predictive),
    ];
    for (id, profile) in ids {
        for (digit, mode) in [("0", SingleNalUnit), ("1", NonInterleaved)] {
            let wanted = format!(
                "profile-level-id={id};level-asymmetry-allowed=1;packetization-mode={digit}"
            );
            for line in [
                format!(
                    "level-asymmetry-allowed=1;packetization-mode={digit};profile-level-id={id}"
                ),
                format!(
                    "profile-level-id={id};level-asymmetry-allowed=1;packetization-mode={digit}"
                ),
            ] {
                let format: H264Parameters = written(&line, &wanted);
                let known = format.profile_level().expect("a known profile");
                assert_eq!(
                    (known.profile(), known.level()),
                    (profile, H264LevelIdc::Level3_1)
                );
                assert_eq!(format.packetization_mode(), mode);
                assert!(format.level_asymmetry_allowed());
            }
        }
    }
    // Firefox leaves the mode out where it is 0.
    let format: H264Parameters = written(
        "profile-level-id=42e01f;level-asymmetry-allowed=1",
        "profile-level-id=42e01f;level-asymmetry-allowed=1",
    );
    assert_eq!(format.packetization_mode(), SingleNalUnit);
}

/// As Chromium and Safari write them.
#[test]
fn offers_of_browsers_of_h265() {
    for (line, wanted, level) in [
        (
            "level-id=180;profile-id=1;tier-flag=0;tx-mode=SRST",
            "profile-id=1;tier-flag=0;level-id=180;tx-mode=SRST",
            180,
        ),
        (
            "level-id=93;profile-id=1;tier-flag=0;tx-mode=SRST",
            "profile-id=1;tier-flag=0;level-id=93;tx-mode=SRST",
            93,
        ),
        ("level-id=93;tx-mode=SRST", "level-id=93;tx-mode=SRST", 93),
    ] {
        let format: H265Parameters = written(line, wanted);
        assert_eq!(
            format.profile_tier_level(),
            H265ProfileTierLevel::new(1, 0, level)
        );
        assert_eq!(format.tx_mode(), TxMode::SingleStream);
    }
}

/// Lines that FFmpeg 5.1.9 and GStreamer 1.22.0 wrote in a run: of a small stream, and of x264, x265 and OpenH264.
#[test]
fn lines_of_programs() {
    let lines = [
        (
            "packetization-mode=1; sprop-parameter-sets=Z0LACtkJbARAAAADAEAAAAyDxImS,aMuBEsg=; profile-level-id=42C00A",
            "profile-level-id=42C00A;sprop-parameter-sets=Z0LACtkJbARAAAADAEAAAAyDxImS,aMuBEsg=;packetization-mode=1",
            [0x42, 0xc0, 0x0a],
        ),
        (
            "packetization-mode=1; sprop-parameter-sets=Z2QAH6zZQUH7ARAAAAMAEAAAAwMg8YMZYA==,aOvjyyLA; profile-level-id=64001F",
            "profile-level-id=64001F;sprop-parameter-sets=Z2QAH6zZQUH7ARAAAAMAEAAAAwMg8YMZYA==,aOvjyyLA;packetization-mode=1",
            [0x64, 0x00, 0x1f],
        ),
        (
            "packetization-mode=1;sprop-parameter-sets=Z0LACtkJbARAAAADAEAAAAyDxImS,aMuBEsg=;profile-level-id=42c00a;level-asymmetry-allowed=1",
            "profile-level-id=42c00a;sprop-parameter-sets=Z0LACtkJbARAAAADAEAAAAyDxImS,aMuBEsg=;level-asymmetry-allowed=1;packetization-mode=1",
            [0x42, 0xc0, 0x0a],
        ),
        (
            "packetization-mode=1;sprop-parameter-sets=Z01AFeygoP2AtQYGBqUAAAMAAQAAAwA8jxYtlg==,aOvssg==;profile-level-id=4d4015;level-asymmetry-allowed=1",
            "profile-level-id=4d4015;sprop-parameter-sets=Z01AFeygoP2AtQYGBqUAAAMAAQAAAwA8jxYtlg==,aOvssg==;level-asymmetry-allowed=1;packetization-mode=1",
            [0x4d, 0x40, 0x15],
        ),
        (
            "packetization-mode=1;sprop-parameter-sets=Z0LADYyNQKD5APCIRqA=,aM48gA==",
            "sprop-parameter-sets=Z0LADYyNQKD5APCIRqA=,aM48gA==;packetization-mode=1",
            [0x42, 0x00, 0x0a],
        ),
    ];
    for (line, wanted, id) in lines {
        let format: H264Parameters = written(line, wanted);
        assert_eq!(format.profile_level_id(), id);
        let sets = format.sprop_parameter_sets().expect("two sets");
        // An SPS says of itself what the line says, and a PPS is behind it.
        assert_eq!([sets[0][0], sets[1][0]], [0x67, 0x68]);
        let is_said = format.value(H264Parameter::ProfileLevelId).is_some();
        assert!(!is_said || sets[0][1..4] == id);
        assert_eq!(
            write_units(&sets).as_deref(),
            Ok(format.value(H264Parameter::SpropParameterSets).unwrap())
        );
    }
    for line in [
        "sprop-vps=QAEMAf//AiAAAAMAkAAAAwAAAwA8lZQJ; sprop-sps=QgEBAiAAAAMAkAAAAwAAAwA8oBYgJE2WVlkkyvAWgIAAAAMAgAAADIQ=; sprop-pps=RAHBcrRiQA==",
        "sprop-vps=QAEMAf//AWAAAAMAkAAAAwAAAwA8lZgJ; sprop-sps=QgEBAWAAAAMAkAAAAwAAAwA8oAoIDxZZWaSTK8BaAgAAAwACAAADADIQ; sprop-pps=RAHBcrRiQA==",
        "sprop-vps=QAEMAf//AWAAAAMAkAAAAwAAAwA/lZgJ;sprop-sps=QgEBAWAAAAMAkAAAAwAAAwA/oAoIDxZZWaSTK//AAEAAWoMDAwIAAAMAAgAAAwA8EA==;sprop-pps=RAHBcrRiQA==",
    ] {
        let format: H265Parameters = written(line, &line.replace("; ", ";"));
        let sets = [format.sprop_vps(), format.sprop_sps(), format.sprop_pps()];
        let headers = sets.map(|units| units.expect("a set")[0][0]);
        assert_eq!(headers, [0x40, 0x42, 0x44]);
        assert_eq!(format.sprop_sei(), Ok(vec![]));
    }
}

/// The video of an offer that Pion 3.1.56 made in a run, as a server goes through its lines.
#[test]
fn an_offer_of_pion() {
    let lines = "m=video 9 UDP/TLS/RTP/SAVPF 96 97 102 121 127 120 125 107 108 109 123 118 116
a=rtpmap:96 VP8/90000
a=rtpmap:97 rtx/90000
a=fmtp:97 apt=96
a=rtpmap:102 H264/90000
a=fmtp:102 level-asymmetry-allowed=1;packetization-mode=1;profile-level-id=42001f
a=rtpmap:121 rtx/90000
a=fmtp:121 apt=102
a=rtpmap:127 H264/90000
a=fmtp:127 level-asymmetry-allowed=1;packetization-mode=0;profile-level-id=42001f
a=rtpmap:125 H264/90000
a=fmtp:125 level-asymmetry-allowed=1;packetization-mode=1;profile-level-id=42e01f
a=rtpmap:108 H264/90000
a=fmtp:108 level-asymmetry-allowed=1;packetization-mode=0;profile-level-id=42e01f
a=rtpmap:123 H264/90000
a=fmtp:123 level-asymmetry-allowed=1;packetization-mode=1;profile-level-id=640032
a=rtpmap:116 ulpfec/90000";
    let values = |name| {
        lines
            .lines()
            .filter_map(move |line| line.strip_prefix(name))
    };
    let maps = values("a=rtpmap:").filter_map(|it| it.parse::<RtpMap>().ok());
    let formats = maps.map(|map| {
        let front = format!("{} ", map.payload_type());
        let format = values("a=fmtp:").find_map(|it| it.strip_prefix(&front));
        let format: H264Parameters = format.expect("a format").parse().expect("it is read");
        assert_eq!(map.codec(), Codec::H264);
        (
            map.payload_type(),
            format.packetization_mode() as u8,
            format.profile_level_id(),
        )
    });
    let wanted = [
        (102, 1, [0x42, 0x00, 0x1f]),
        (127, 0, [0x42, 0x00, 0x1f]),
        (125, 1, [0x42, 0xe0, 0x1f]),
        (108, 0, [0x42, 0xe0, 0x1f]),
        (123, 1, [0x64, 0x00, 0x32]),
    ];
    assert!(formats.eq(wanted));
}

/// RFC 6184, 8.2.1, RFC 7798, 7.1, and what RFC 9328, 7.2 says of values.
#[test]
fn lines_of_the_rfcs() {
    let line = "profile-level-id=42A01E;\r\n packetization-mode=1;\r\n sprop-parameter-sets=Z0IACpZTBYmI,aMljiA==";
    let format: H264Parameters = line.parse().unwrap();
    assert_eq!(format.profile_level_id(), [0x42, 0xa0, 0x1e]);
    assert_eq!(
        format.sprop_parameter_sets(),
        read_units("Z0IACpZTBYmI,aMljiA==")
    );
    let format: H265Parameters = "level-id=120; dec-parallel-cap={w:8;level-id=93,t:4;level-id=90}"
        .parse()
        .unwrap();
    assert_eq!(format.level_id(), 120);
    let capabilities = format.dec_parallel_cap();
    assert_eq!(capabilities, Some("{w:8;level-id=93,t:4;level-id=90}"));
    let format: H266Parameters = "profile-id=17; level-id=83; tier-flag=1; sprop-dci=AGk="
        .parse()
        .unwrap();
    assert_eq!(
        format.profile_tier_level(),
        H266ProfileTierLevel::new(17, 1, 83)
    );
    assert_eq!(format.sprop_dci(), Ok(vec![vec![0x00, 0x69]]));
}

/// What stands where a line says nothing (RFC 6184, 8.1; RFC 7798, 7.1; RFC 9328, 7.2).
#[test]
fn what_is_taken_where_nothing_is_said() {
    let none = H264Parameters::default();
    assert_eq!((none.to_string(), none.iter().count()), (String::new(), 0));
    assert_eq!(none.profile_level_id(), [0x42, 0x00, 0x0a]);
    assert_eq!(none.packetization_mode(), PacketizationMode::SingleNalUnit);
    assert_eq!((none.sar_understood(), none.deint_buf_cap()), (13, 0));
    assert_eq!((none.max_fs(), none.max_recv_level()), (None, None));
    assert_eq!(
        (none.in_band_parameter_sets(), none.sprop_max_don_diff()),
        (None, None)
    );
    assert!(!none.level_asymmetry_allowed() && !none.redundant_pic_cap());
    assert_eq!(none.sprop_parameter_sets(), Ok(vec![]));
    let none = H265Parameters::default();
    assert_eq!(
        none.profile_tier_level(),
        Some(H265ProfileTierLevel::FALLBACK)
    );
    assert_eq!(
        (none.tx_mode(), none.interop_constraints()),
        (TxMode::SingleStream, 0xb000_0000_0000)
    );
    assert_eq!(
        (none.sprop_sub_layer_id(), none.recv_sub_layer_id()),
        (6, None)
    );
    assert_eq!(
        (none.sprop_max_don_diff(), none.depack_buf_cap()),
        (0, u32::MAX)
    );
    assert_eq!(none.profile_compatibility_indicator(), None);
    assert_eq!(
        (none.max_dpb(), none.sprop_spatial_segmentation_idc()),
        (6, None)
    );
    let format: H265Parameters = "sprop-spatial-segmentation-idc=fFf".parse().unwrap();
    assert_eq!(format.sprop_spatial_segmentation_idc(), Some(4095));
    let none = H266Parameters::default();
    assert_eq!(
        none.profile_tier_level(),
        Some(H266ProfileTierLevel::FALLBACK)
    );
    assert_eq!((none.sprop_sublayer_id(), none.sprop_ols_id()), (6, None));
    assert_eq!(none.sprop_max_don_diff(), 0);
    let constraints = none.interop_constraints().unwrap();
    assert!(constraints.is_frame_only() && !constraints.is_multilayer());
}

/// Numbers at the ends of their ranges, and values that are bytes.
#[test]
fn values_as_they_are() {
    let line = "max-recv-level=e028;in-band-parameter-sets=0;sar-understood=254;sprop-max-don-diff=32767;\
        deint-buf-cap=4294967295;max-rcmd-nalu-size=4294967295;packetization-mode=2";
    let format: H264Parameters = line.parse().unwrap();
    assert_eq!(format.max_recv_level(), Some([0xe0, 0x28]));
    assert_eq!(
        (format.in_band_parameter_sets(), format.sar_understood()),
        (Some(false), 254)
    );
    assert_eq!(
        (format.sprop_max_don_diff(), format.deint_buf_cap()),
        (Some(32767), u32::MAX)
    );
    assert_eq!(format.max_rcmd_nalu_size(), Some(u64::from(u32::MAX)));
    assert_eq!(format.packetization_mode(), PacketizationMode::Interleaved);
    let line = "profile-space=1;profile-compatibility-indicator=60000000;interop-constraints=b0000000000F;\
        tx-mode=MRMT;max-lsr=18446744073709551615;max-dpb=16;level-id=255";
    let format: H265Parameters = line.parse().unwrap();
    assert_eq!(format.profile_tier_level(), None); // a space that isn't known
    assert_eq!(format.profile_compatibility_indicator(), Some(0x6000_0000));
    assert_eq!(format.interop_constraints(), 0xb000_0000_000f);
    assert_eq!(
        (format.tx_mode(), format.max_lsr()),
        (TxMode::MultipleSessions, Some(u64::MAX))
    );
    assert_eq!((format.max_dpb(), format.level_id()), (16, 255));
    let mode = |text: &str| text.parse::<H265Parameters>().unwrap().tx_mode();
    assert_eq!(
        (mode("tx-mode=MRST"), mode("tx-mode=SRST")),
        (TxMode::MultipleStreams, TxMode::SingleStream)
    );
}

#[test]
fn names_of_parameters() {
    fn check<P: Parameter + ToString>(last: &str) {
        let names: HashSet<&str> = P::all().iter().map(|it| it.name()).collect();
        assert_eq!(
            (names.len(), P::all().last().unwrap().to_string().as_str()),
            (P::all().len(), last)
        );
        for parameter in P::all() {
            assert_eq!(P::of_name(parameter.name()), Some(*parameter));
            assert_eq!(
                P::of_name(&parameter.name().to_uppercase()),
                Some(*parameter)
            );
        }
        assert_eq!((P::of_name("x"), P::of_name("")), (None, None));
    }
    check::<H264Parameter>("sar-supported");
    check::<H265Parameter>("include-dph");
    check::<H266Parameter>("depack-buf-cap");
    assert_eq!(
        H264Parameter::of_name("Packetization-Mode"),
        Some(H264Parameter::PacketizationMode)
    );
    assert_eq!(format!("{:>9}|", H265Parameter::TxMode), "  tx-mode|");
}

#[test]
fn others_stay_in_their_order() {
    let line = "x-google-start-bitrate=800; MAX-FS=3600;; B; x-google-max-bitrate=2000; B=2";
    let format: H264Parameters = written(
        line,
        "max-fs=3600;x-google-start-bitrate=800;B=;x-google-max-bitrate=2000;B=2",
    );
    let others = [
        ("x-google-start-bitrate", "800"),
        ("B", ""),
        ("x-google-max-bitrate", "2000"),
        ("B", "2"),
    ];
    assert_eq!(format.others().len(), 4);
    assert!(format.others().eq(others));
    assert!(
        format
            .iter()
            .eq([("max-fs", "3600")].into_iter().chain(others))
    );
    assert_eq!(format.max_fs(), Some(3600));
    let shown = r#"{"max-fs": "3600", "x": "ä"}"#;
    let format: H264Parameters = "x=ä;max-fs=3600".parse().unwrap();
    assert_eq!(format!("{format:?}"), shown);
}

/// What is refused, with its place and its reason.
#[test]
fn refusals() {
    #[track_caller]
    fn check<P: Parameter>(line: &str, place: usize, fault: Fault, said: &str) {
        let error = line.parse::<CodecParameters<P>>().unwrap_err();
        assert_eq!(error, ParametersError::Refused { place, fault }, "{line}");
        assert_eq!(error.to_string(), said);
    }
    let said = "parameter 1 is refused: its value is out of its range";
    check::<H264Parameter>("x=1;;packetization-mode=3", 1, Fault::OutOfRange, said);
    let said = "parameter 0 is refused: its value is no decimal number";
    check::<H265Parameter>("level-id=0x5d", 0, Fault::NotANumber, said);
    let said = "parameter 0 is refused: its value isn't the hexadecimal digits that it has";
    check::<H264Parameter>("profile-level-id=42e0", 0, Fault::NotHexadecimal, said);
    let said = "parameter 0 is refused: its value is none of SRST, MRST and MRMT";
    check::<H265Parameter>("tx-mode=MRTM", 0, Fault::NotTxMode, said);
    let said = "parameter 2 is refused: it is given twice";
    check::<H266Parameter>("level-id=51;a=2;Level-ID=51", 2, Fault::Twice, said);
    let open = "x={a;level-id=1".parse::<H266Parameters>().unwrap_err();
    assert_eq!(
        (open, open.to_string().as_str()),
        (ParametersError::OpenBrace, "a brace is left open")
    );
}

#[test]
fn values_that_are_set() {
    let mut format: H264Parameters = "x=1;max-fs=8160;packetization-mode=0".parse().unwrap();
    format
        .set(H264Parameter::PacketizationMode, " 1\n")
        .unwrap();
    format.set(H264Parameter::ProfileLevelId, "42e01f").unwrap();
    let sets = [vec![0x67, 0x42, 0x00, 0x0a], vec![0x68, 0xc9, 0x63, 0x88]];
    format
        .set_units(H264Parameter::SpropParameterSets, &sets)
        .unwrap();
    format.remove(H264Parameter::MaxFs).unwrap();
    format.remove(H264Parameter::MaxBr).unwrap(); // it has none
    let wanted =
        "profile-level-id=42e01f;sprop-parameter-sets=Z0IACg==,aMljiA==;packetization-mode=1;x=1";
    assert_eq!(format.to_string(), wanted);
    assert_eq!(format.sprop_parameter_sets().as_deref(), Ok(&sets[..]));
    let before = format.clone();
    for (value, wanted) in [
        ("3", SetError::Fault(Fault::OutOfRange)),
        ("", SetError::Fault(Fault::NotANumber)),
        ("1;max-fs=1", SetError::NotAValue),
        ("1;", SetError::NotAValue),
        ("{", SetError::NotAValue),
    ] {
        let refused = format.set(H264Parameter::PacketizationMode, value);
        assert_eq!((refused, &format), (Err(wanted), &before), "{value}");
    }
    let texts = [
        SetError::Fault(Fault::Twice),
        SetError::NotAValue,
        SetError::OutOfMemory,
    ]
    .map(|it| it.to_string());
    assert_eq!(
        texts,
        [
            "the parameter is refused: it is given twice",
            "the text is more than a value",
            "out of memory"
        ]
    );
    let mut format = H265Parameters::default();
    let capabilities = "{w:8;level-id=93}";
    format
        .set(H265Parameter::DecParallelCap, capabilities)
        .unwrap();
    assert_eq!(
        format.to_string(),
        format!("dec-parallel-cap={capabilities}")
    );
}

/// Texts that are no units, and why.
#[test]
fn texts_of_units() {
    let cases = [
        ("", Err(UnitsError::Empty { place: 0 })),
        ("AA==,", Err(UnitsError::Empty { place: 1 })),
        ("Z0I", Err(UnitsError::NotBase64 { place: 0 })),
        // Padding left out, bits behind the last byte, a text behind the padding, and white space.
        ("AA==,aMljiA", Err(UnitsError::NotBase64 { place: 1 })),
        ("aMljiB==", Err(UnitsError::NotBase64 { place: 0 })),
        ("AA==AA==", Err(UnitsError::NotBase64 { place: 0 })),
        ("AA=A", Err(UnitsError::NotBase64 { place: 0 })),
        ("A===", Err(UnitsError::NotBase64 { place: 0 })),
        ("====", Err(UnitsError::NotBase64 { place: 0 })),
        ("AAAA, AA==", Err(UnitsError::NotBase64 { place: 1 })),
        ("AA-_", Err(UnitsError::NotBase64 { place: 0 })),
        (
            "AA==,/+8=,AAAB",
            Ok(vec![vec![0], vec![0xff, 0xef], vec![0, 0, 1]]),
        ),
    ];
    for (text, wanted) in cases {
        assert_eq!(read_units(text), wanted, "{text}");
        if let Ok(units) = wanted {
            assert_eq!(write_units(&units).as_deref(), Ok(text));
        }
    }
    // Lengths around the groups of three.
    for len in 1..400 {
        let units = [
            (0..len).map(|i| (i * 7) as u8).collect::<Vec<u8>>(),
            vec![1],
        ];
        let text = write_units(&units).unwrap();
        assert_eq!(text.len(), (len + 2_usize).div_euclid(3) * 4 + 5);
        assert_eq!(read_units(&text).as_deref(), Ok(&units[..]));
    }
    assert_eq!(write_units(&[]).as_deref(), Ok(""));
    let format: H264Parameters = "sprop-parameter-sets=AA==,A".parse().unwrap();
    let error = format.sprop_parameter_sets().unwrap_err();
    assert_eq!(error.to_string(), "unit 1 is no base64");
    assert_eq!(format.units(H264Parameter::MaxFs), Ok(vec![]));
}

#[test]
fn payload_types() {
    for (text, wanted, payload_type, codec) in [
        ("96 H264/90000", "96 H264/90000", 96, Codec::H264),
        ("98 h265/90000", "98 H265/90000", 98, Codec::H265),
        (" 0  H266/90000\r\n", "0 H266/90000", 0, Codec::H266),
    ] {
        let map: RtpMap = text.parse().expect(text);
        assert_eq!(Some(map), RtpMap::new(payload_type, codec));
        assert_eq!(
            (map.payload_type(), map.codec(), map.to_string().as_str()),
            (payload_type, codec, wanted)
        );
    }
    for (text, wanted, said) in [
        ("", RtpMapError::PayloadType, "no payload type"),
        (
            "128 H264/90000",
            RtpMapError::PayloadType,
            "no payload type",
        ),
        (
            "96 VP8/90000",
            RtpMapError::Encoding,
            "unknown encoding name",
        ),
        (
            "96 H264/48000",
            RtpMapError::ClockRate,
            "clock rate is not 90000",
        ),
        (
            "96 H264/90000/1",
            RtpMapError::ClockRate,
            "clock rate is not 90000",
        ),
    ] {
        assert_eq!(text.parse::<RtpMap>(), Err(wanted), "{text}");
        assert_eq!(wanted.to_string(), said);
    }
    assert_eq!(
        (
            RtpMap::new(127, Codec::H264).is_some(),
            RtpMap::new(128, Codec::H264)
        ),
        (true, None)
    );
}

/// RFC 4588, 8.7, RFC 2198, 5, RFC 5109, 14, RFC 8627, 7, and Chromium's lines.
#[test]
fn payload_types_beside_video() {
    for (text, wanted, payload_type, format) in [
        ("97 rtx/90000", "97 rtx/90000", 97, RepairFormat::Rtx),
        (" 0  RED/90000\r\n", "0 red/90000", 0, RepairFormat::Red),
        (
            "127 ulpfec/90000",
            "127 ulpfec/90000",
            127,
            RepairFormat::Ulpfec,
        ),
        (
            "110 flexfec/90000",
            "110 flexfec/90000",
            110,
            RepairFormat::Flexfec,
        ),
        (
            "35 flexfec-03/90000",
            "35 flexfec-03/90000",
            35,
            RepairFormat::Flexfec03,
        ),
    ] {
        let map: RepairMap = text.parse().expect(text);
        assert_eq!(Some(map), RepairMap::new(payload_type, format));
        assert_eq!((map.payload_type(), map.format()), (payload_type, format));
        assert_eq!(map.to_string(), wanted);
        assert_eq!(text.parse::<RtpMap>(), Err(RtpMapError::Encoding));
    }
    for (text, wanted) in [
        ("", RtpMapError::PayloadType),
        ("128 rtx/90000", RtpMapError::PayloadType),
        ("96 H264/90000", RtpMapError::Encoding),
        ("35 flexfec-04/90000", RtpMapError::Encoding),
        ("97 rtx", RtpMapError::ClockRate),
        ("63 red/48000/2", RtpMapError::ClockRate),
    ] {
        assert_eq!(text.parse::<RepairMap>(), Err(wanted), "{text}");
    }
    assert_eq!(RepairMap::new(128, RepairFormat::Rtx), None);
}

#[test]
fn formats_of_retransmission() {
    for (text, wanted, payload_type, rtx_time) in [
        (
            "apt=96;rtx-time=3000",
            "apt=96;rtx-time=3000",
            96,
            Some(3000),
        ),
        ("apt=127", "apt=127", 127, None),
        (
            " RTX-Time=200; x=1; APT = 0 ",
            "apt=0;rtx-time=200",
            0,
            Some(200),
        ),
    ] {
        let format: RtxFormat = text.parse().expect(text);
        assert_eq!(Some(format), RtxFormat::new(payload_type, rtx_time));
        assert_eq!(
            (format.payload_type(), format.rtx_time()),
            (payload_type, rtx_time)
        );
        assert_eq!(format.to_string(), wanted);
    }
    let refused = |place, fault| RtxError::Parameters(ParametersError::Refused { place, fault });
    for (text, wanted, said) in [
        (
            "rtx-time=3000",
            RtxError::NoPayloadType,
            "no associated payload type",
        ),
        ("", RtxError::NoPayloadType, "no associated payload type"),
        (
            "rtx-time=1;apt=128",
            refused(1, Fault::OutOfRange),
            "parameter 1 is refused",
        ),
        (
            "apt=H264",
            refused(0, Fault::NotANumber),
            "parameter 0 is refused",
        ),
        (
            "apt=96;apt=96",
            refused(1, Fault::Twice),
            "parameter 1 is refused",
        ),
    ] {
        assert_eq!(text.parse::<RtxFormat>(), Err(wanted), "{text}");
        assert!(wanted.to_string().starts_with(said), "{wanted}");
    }
    assert_eq!(RtxFormat::new(128, None), None);
}

#[test]
fn plain_data() {
    fn check<T: Clone + PartialEq + Eq + std::hash::Hash + Debug + Send + Sync>() {}
    check::<H264Parameters>();
    check::<H265Parameters>();
    check::<H266Parameters>();
    check::<RtpMap>();
    check::<RepairMap>();
    check::<RtxFormat>();
    fn error<T: std::error::Error + Send + Sync + 'static + std::hash::Hash + Copy>() {}
    error::<ParametersError>();
    error::<UnitsError>();
    error::<SetError>();
    error::<RtpMapError>();
    error::<RtxError>();
    error::<Fault>();
    let [one, same, other]: [H264Parameters; 3] =
        ["a=1;max-fs=2", " Max-FS=2 ;a=1;", "max-fs=2;b=1"].map(|it| it.parse().unwrap());
    assert_eq!(one, same);
    let set: HashSet<_> = [one, same, other].into_iter().collect();
    assert_eq!(set.len(), 2);
}
