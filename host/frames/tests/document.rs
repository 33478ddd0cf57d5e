//! The codec and the faults are as documents 01 and 02 say.

use cases::calls::{empty, same_answers, Call};
use cases::shapes::solids::{block, pyramid};
use cases::shapes::Shape;
use frames::codec::{call_answer, call_frame, decode, read_answer, Asked, HULL_A, LONGEST_ANSWER};
use frames::sorts::marked::WHOLE_CASE;
use frames::{hex, wanted, LONGEST_LINE};
use records::{FeaturePair, Point, Quat, SatCache, Transform, Vec3};

fn answer(line: &str) -> String {
    let answer = wanted::to_line(line.as_bytes()).expect("no work is asked for");
    String::from_utf8(hex::written(&answer)).expect("digits")
}

#[test]
fn the_whole_case() {
    for (line, wanted) in WHOLE_CASE {
        assert_eq!(answer(line), wanted);
    }
    assert_eq!(answer("1100090103"), "91000301 09".replace(' ', ""));
    assert_eq!(answer("1101050106"), "9100060005");
}

#[test]
fn roots() {
    for (line, wanted) in [
        ("1040000000", "903fb504f3"),
        ("1000000001", "901a3504f3"),
        ("1080000000", "9080000000"),
        ("1000000000", "9000000000"),
        ("107f800000", "907f800000"),
        ("10ff800000", "907fc00000"),
        ("10bf800000", "907fc00000"),
        ("107f800001", "907fc00000"),
        ("10ffffffff", "907fc00000"),
    ] {
        assert_eq!(answer(line), wanted);
    }
}

/// Where two are met, the first in document 01's order is given.
#[test]
fn faults_come_in_order() {
    let long = |text: &str, length: usize| text.repeat(length).split_at(length).0.to_string();
    for (line, wanted) in [
        (String::new(), "ff22"),
        ("1".into(), "ff21"),
        ("10 ".into(), "ff21"),
        ("1040800000\r".into(), "ff21"),
        ("1G".into(), "ff21"),
        ("10408000A0".into(), "ff21"),
        ("13".into(), "ff22"),
        ("90".into(), "ff22"),
        ("10".into(), "ff23"),
        ("104080000000".into(), "ff23"),
        ("11000301".into(), "ff23"),
        ("12".into(), "ff23"),
        ("1102030109".into(), "ff08"),
        ("1100030209".into(), "ff08"),
        ("11ff03ff".into(), "ff23"),
        (long("z", LONGEST_LINE), "ff21"),
        (long("z", LONGEST_LINE + 1), "ff24"),
        (long("0", LONGEST_LINE + 1), "ff24"),
        (long("0", LONGEST_LINE - 1), "ff21"),
        (long("0", LONGEST_LINE), "ff22"),
        (long("10", LONGEST_LINE), "ff23"),
    ] {
        assert_eq!(answer(&line), wanted, "{} characters", line.len());
    }
}

/// A cube's frame by the places that document 01 gives, and back.
#[test]
fn a_call_is_laid_out_as_written() {
    let (mut a, b) = (
        Shape::new(&block([1.0, 2.0, 4.0])),
        Shape::new(&pyramid(4, 1.0, 1.0)),
    );
    a.size.unit = 1000;
    let part = |x: u32| f32::from_bits(x);
    let call = Call {
        capacity: -2,
        cache: SatCache {
            separation: 0x0102_0304,
            kind: 5,
            index_a: 6,
            index_b: 7,
            hit: 8,
        },
        transform: Transform {
            p: Vec3 {
                x: part(0x1112_1314),
                y: part(0x2122_2324),
                z: part(0x3132_3334),
            },
            q: Quat {
                v: Vec3 {
                    x: part(0x4142_4344),
                    y: part(0x5152_5354),
                    z: part(0x6162_6364),
                },
                s: part(0x7172_7374),
            },
        },
        a: a.lent(),
        b: b.lent(),
    };
    let frame = call_frame(&call);
    let head =
        "12fffffffe0102030405060708111213142122232431323334414243445152535461626364 71727374";
    assert_eq!(
        hex::written(&frame[..HULL_A]),
        head.replace(' ', "").as_bytes()
    );
    // The unit; V 8, H 24, F 6; the box; then the x list.
    let hull = "03e8000800180006bf800000c0000000c08000003f8000004000000040800000bf8000003f800000";
    assert!(hex::written(&frame[HULL_A..]).starts_with(hull.as_bytes()));
    // Vertex edges, half-edges, face edges, planes.
    let links = HULL_A + 8 + 24 + 3 * 32;
    assert_eq!(frame[links..links + 8 + 96 + 6], a.links);
    let planes = links + 110;
    assert_eq!(frame[planes..planes + 4], (-1f32).to_be_bytes());
    // The unit; V 5, padded to 8.
    let hull_b = planes + 96;
    assert_eq!(frame[hull_b..hull_b + 8], [0, 1, 0, 5, 0, 16, 0, 5]);
    assert_eq!(frame.len(), hull_b + 8 + 24 + 96 + 5 + 64 + 5 + 80);

    let Ok(Asked::Call(given)) = decode(&frame) else {
        panic!("the frame is a call");
    };
    assert_eq!(call_frame(&given.call()), frame);
    assert_eq!((given.capacity, given.cache), (call.capacity, call.cache));
    assert_eq!((given.a.size.unit, given.b.size.unit), (1000, 1));
    for length in 0..frame.len() {
        assert!(decode(&frame[..length]).is_err());
    }
    let mut longer = frame.clone();
    longer.push(0);
    assert!(decode(&longer).is_err());

    // The length follows from the sizes alone, whatever the unit is.
    for unit in [0, 1, 10, 77, 65_535u16] {
        for hull in [HULL_A, hull_b] {
            let mut other = frame.clone();
            other[hull..hull + 2].copy_from_slice(&unit.to_be_bytes());
            assert!(decode(&other).is_ok() && decode(&other[1..]).is_err());
        }
    }
}

/// A NaN that is handed out has fixed bits; the places stand together behind the points, and the mark last.
#[test]
fn an_answer_is_laid_out_as_written() {
    let cache = SatCache {
        separation: 0xffff_ffff,
        kind: 4,
        index_a: 2,
        index_b: 6,
        hit: 1,
    };
    let mut answer = empty(0, cache);
    answer.outcome.retired = 1;
    let contact = &mut answer.outcome.contact;
    contact.count = 1;
    contact.normal = Vec3 {
        x: 1.0,
        y: f32::from_bits(0xff80_0001),
        z: -0.0,
    };
    contact.points[0] = Point {
        position: Vec3 {
            x: 2.0,
            y: 3.0,
            z: 4.0,
        },
        separation: -1.0,
        pair: FeaturePair {
            owner1: 0,
            index1: 10,
            owner2: 1,
            index2: 11,
        },
        place: 7,
    };
    let bytes = call_answer(&answer);
    assert_eq!(bytes.len(), LONGEST_ANSWER);
    let head =
        "9200ffffffff04020601013f8000007fc0000080000000400000004040000040800000bf800000000a010b";
    let zeros = "0".repeat(120);
    let wanted = format!("{head}{zeros}07ffffff01");
    assert_eq!(hex::written(&bytes), wanted.as_bytes());

    let read = read_answer(&bytes).expect("it is an answer to a call");
    assert!(same_answers(&read, &answer));
    assert!(read_answer(&bytes[1..]).is_none() && read_answer(&bytes[..107]).is_none());
}
