//! What streams say of themselves: by hand from their parameter sets (Rec. ITU-T H.264, 7.3.2.1.1; H.265, 7.3.3; H.266,
//! 7.3.2.4 and 7.3.3.1), and as FFmpeg 5.1.9 wrote it of the same sets.

use crate::sdp::*;
use crate::tests::bytes;

/// Units behind start codes of three bytes.
fn payload(units: &[Vec<u8>]) -> Vec<u8> {
    units
        .iter()
        .flat_map(|unit| [&[0, 0, 1], &unit[..]].concat())
        .collect()
}

#[test]
fn streams_of_h264() {
    let slice = bytes("65 88 84");
    for (id, sets) in [
        ("42c00a", "Z0LACtkJbARAAAADAEAAAAyDxImS,aMuBEsg="),
        ("64001f", "Z2QAH6zZQUH7ARAAAAMAEAAAAwMg8YMZYA==,aOvjyyLA"),
    ] {
        let units = [
            read_units(sets).unwrap(),
            vec![slice.clone(), bytes("67 01 02 03")],
        ]
        .concat();
        let slices: Vec<&[u8]> = units.iter().map(Vec::as_slice).collect();
        let format = H264Parameters::of_units(&slices).unwrap();
        let wanted =
            format!("profile-level-id={id};sprop-parameter-sets={sets};packetization-mode=1");
        assert_eq!(format.to_string(), wanted);
        assert_eq!(H264Parameters::of_payload(&payload(&units)), Ok(format));
    }
    let refused = |units: &[&[u8]]| H264Parameters::of_units(units).unwrap_err();
    assert_eq!(refused(&[]), StreamError::NoParameterSet);
    assert_eq!(
        refused(&[&slice, &bytes("67 42 c0 1f")]),
        StreamError::NoParameterSet
    );
    assert_eq!(
        refused(&[&bytes("68 ce"), &slice]),
        StreamError::NoParameterSet
    );
    assert_eq!(
        refused(&[&bytes("67 42 c0")]),
        StreamError::ShortParameterSet
    );
    let said = "no parameter set says a profile and a level";
    assert_eq!(StreamError::NoParameterSet.to_string(), said);
}

#[test]
fn streams_of_h265() {
    let (vps, sps) = (
        "QAEMAf//AWAAAAMAkAAAAwAAAwA8lZgJ",
        "QgEBAWAAAAMAkAAAAwAAAwA8oAoIDxZZWaSTK8BaAgAAAwACAAADADIQ",
    );
    let pps = "RAHBcrRiQA==";
    let units = read_units(&format!("{vps},{sps},{pps}")).unwrap();
    let format = H265Parameters::of_payload(&payload(&units)).unwrap();
    let general = "profile-space=0;profile-id=1;tier-flag=0;level-id=60;interop-constraints=900000000000;\
        profile-compatibility-indicator=60000000";
    let wanted = format!("{general};sprop-vps={vps};sprop-sps={sps};sprop-pps={pps}");
    assert_eq!(format.to_string(), wanted);
    // Of a VPS alone, behind its four bytes.
    let format = H265Parameters::of_units(&[&units[0]]).unwrap();
    assert_eq!(format.to_string(), format!("{general};sprop-vps={vps}"));
    assert_eq!(
        H265Parameters::of_units(&[&units[2]]),
        Err(StreamError::NoParameterSet)
    );
    assert_eq!(
        H265Parameters::of_units(&[&units[1][..10]]),
        Err(StreamError::ShortParameterSet)
    );
}

#[test]
fn streams_of_h266() {
    let sps = bytes("00 79 00 0b 02 33 80 80");
    let pps = bytes("00 81 00 80");
    let format = H266Parameters::of_payload(&payload(&[sps.clone(), pps])).unwrap();
    let wanted = "profile-id=1;tier-flag=0;interop-constraints=gA==;level-id=51;sprop-sps=AHkACwIzgIA=;sprop-pps=AIEAgA==";
    assert_eq!(format.to_string(), wanted);
    let refused = |unit: &str| H266Parameters::of_units(&[&bytes(unit)]).unwrap_err();
    assert_eq!(refused("00 81 00"), StreamError::NoParameterSet);
    assert_eq!(refused("00 79 00 0b 02 33"), StreamError::ShortParameterSet);
    assert_eq!(refused("00 79 00 0a 02 33 80"), StreamError::NoProfile);
    // general constraints that end too early
    assert_eq!(
        refused("00 79 00 0b 02 33 a0"),
        StreamError::ShortParameterSet
    );
}

/// Of 71 general constraints the first is set, and of five additional bits all are; a byte stands behind them.
#[test]
fn general_constraints_of_h266() {
    let sps = bytes("00 79 00 0b 02 33 a0 80 00 00 03 00 00 03 00 00 03 00 01 7e ff");
    let format = H266Parameters::of_units(&[&sps]).unwrap();
    let constraints = format.interop_constraints().unwrap();
    let wanted = bytes("a0 80 00 00 00 00 00 00 00 01 7e");
    assert_eq!(constraints.as_bytes(), wanted);
    assert!(constraints.is_frame_only() && !constraints.is_multilayer());
    assert!(constraints.has_general());
    assert_eq!(constraints.to_string(), "oIAAAAAAAAAAAX4=");
    assert_eq!("oIAAAAAAAAAAAX4=".parse(), Ok(constraints.clone()));
    assert_eq!(InteropConstraints::from_bytes(wanted), Ok(constraints));
    let early = H266Parameters::of_units(&[&sps[..19]]);
    assert_eq!(early, Err(StreamError::ShortParameterSet));
    let refused = |text: &str| text.parse::<InteropConstraints>().unwrap_err();
    assert_eq!(refused("gA="), ConstraintsError::NotBase64);
    assert_eq!(refused("oA=="), ConstraintsError::Short);
    assert_eq!(refused("oIAAAAAAAAAAAX7/"), ConstraintsError::Long);
}

/// Sets of levels are read with their place, and written in lower case.
#[test]
fn capability_points() {
    let line = "level-id=93;max-br=7;dec-parallel-cap={w:8; max-lps=2088960;max-lsr=62668800,t:08;level-id=120}";
    let format: H265Parameters = line.parse().unwrap();
    let points = format.capability_points().unwrap();
    assert_eq!(
        (points[0].tool, points[1].tool),
        (ParallelTool::Wavefronts, ParallelTool::NoWavefronts)
    );
    assert_eq!(
        (points[0].max_lsr, points[0].max_lps),
        (Some(62668800), Some(2088960))
    );
    let inferred = format.inferred(points[0]);
    assert_eq!(
        (inferred.level_id, inferred.tier_flag, inferred.max_br),
        (Some(93), Some(0), Some(7))
    );
    let [first, second] = format.capability_points_or_default().unwrap()[..] else {
        panic!("two points");
    };
    assert_eq!(first, inferred);
    assert_eq!(
        (
            second.level_id,
            second.tier_flag,
            second.max_br,
            second.max_lsr
        ),
        (Some(120), Some(0), Some(7), None)
    );
    let none = H265Parameters::default().capability_points_or_default();
    assert_eq!(none, Ok(vec![]));
    let text = "{w:8;max-lsr=62668800;max-lps=2088960,t:8;level-id=120}";
    assert_eq!(write_capability_points(&points).as_deref(), Ok(text));
    assert_eq!(read_capability_points(text), Ok(points));
    assert_eq!(H265Parameters::default().capability_points(), Ok(vec![]));
}

#[test]
fn capability_points_that_are_refused() {
    let limits = |place, fault| CapabilityPointsError::Limits { place, fault };
    for (text, wanted) in [
        ("", CapabilityPointsError::NoBraces),
        ("{}", CapabilityPointsError::NoTool { place: 0 }),
        (
            "{w:8;max-br=1,t:0;max-br=1}",
            CapabilityPointsError::Segmentation {
                place: 1,
                fault: Fault::OutOfRange,
            },
        ),
        (
            "{w:8;max-br=1;MAX-BR=1}",
            limits(
                0,
                ParametersError::Refused {
                    place: 1,
                    fault: Fault::Twice,
                },
            ),
        ),
        ("{t:8;x=1}", CapabilityPointsError::NoLimit { place: 0 }),
    ] {
        assert_eq!(read_capability_points(text), Err(wanted), "{text}");
    }
    let format: H265Parameters = "dec-parallel-cap={t:8}".parse().unwrap();
    assert_eq!(
        format.capability_points_or_default(),
        Err(CapabilityPointsError::NoLimit { place: 0 })
    );
}

#[test]
fn constraints_of_h265() {
    let format: H265Parameters = "interop-constraints=9000000000aB".parse().unwrap();
    assert_eq!(format.interop_constraints(), 0x9000_0000_00ab);
    assert_eq!(
        H265Parameters::default().interop_constraints(),
        0xb000_0000_0000
    );
}

#[test]
fn sets_of_levels() {
    let line = "sprop-level-parameter-sets=42E00B:Z0LgCw==,aMs=:4de00b:aMs=";
    let format: H264Parameters = line.parse().unwrap();
    let levels = format.sprop_level_parameter_sets().unwrap();
    let ids: Vec<[u8; 3]> = levels.iter().map(|it| it.profile_level_id).collect();
    assert_eq!(ids, [[0x42, 0xe0, 0x0b], [0x4d, 0xe0, 0x0b]]);
    assert_eq!(levels[0].sets, [bytes("67 42 e0 0b"), bytes("68 cb")]);
    assert_eq!(levels[1].sets, [bytes("68 cb")]);
    let text = "42e00b:Z0LgCw==,aMs=:4de00b:aMs=";
    assert_eq!(write_level_sets(&levels).as_deref(), Ok(text));
    assert_eq!(read_level_sets(text), Ok(levels));
    assert_eq!(
        H264Parameters::default().sprop_level_parameter_sets(),
        Ok(vec![])
    );
    let sets = |place, fault| LevelSetsError::Sets { place, fault };
    for (text, wanted) in [
        ("", LevelSetsError::NoSets { place: 0 }),
        ("42e00b:Zw==:42e00c", LevelSetsError::NoSets { place: 1 }),
        ("42e0:Zw==", LevelSetsError::NotHexadecimal { place: 0 }),
        (
            "42e00b:Zw==:42e00c:",
            sets(1, UnitsError::Empty { place: 0 }),
        ),
        (
            "42e00b:aMs=,ZQ==",
            sets(0, UnitsError::OtherType { place: 1 }),
        ),
        (
            "42e00b:aMs=,Zx==",
            sets(0, UnitsError::NotBase64 { place: 1 }),
        ),
    ] {
        assert_eq!(read_level_sets(text), Err(wanted), "{text}");
    }
    assert_eq!(
        sets(1, UnitsError::Empty { place: 0 }).to_string(),
        "the sets of level 1 are refused: unit 0 is empty"
    );
}

/// Units of a set are looked at by their type, and for start codes.
#[test]
fn units_of_other_types() {
    let of = |text: &str| {
        text.parse::<H264Parameters>()
            .unwrap()
            .sprop_parameter_sets()
    };
    assert_eq!(
        of("sprop-parameter-sets=Z0I=,ZYg="),
        Err(UnitsError::OtherType { place: 1 })
    );
    assert_eq!(
        of("sprop-parameter-sets=ZwAAAWU="),
        Err(UnitsError::StartCode { place: 0 })
    );
    let format: H265Parameters = "sprop-vps=QgEB;sprop-sei=TgEF".parse().unwrap();
    assert_eq!(format.sprop_vps(), Err(UnitsError::OtherType { place: 0 }));
    assert_eq!(format.sprop_sei(), Ok(vec![bytes("4e 01 05")]));
}

/// Where `packetization-mode` is 0 (RFC 6184, 6.2).
#[test]
fn payloads_of_single_units() {
    let stream = payload(&[
        bytes("67 42 c0 1f"),
        bytes("68 ce"),
        bytes("65 88 84 21 03"),
    ]);
    assert!(fits_single_units(&stream, 5) && !fits_single_units(&stream, 4));
    assert!(fits_single_units(&[], 0));
}
