//! The records have C's layout, and the refusals their numbers.

use records::*;
use std::mem::{offset_of, size_of};

/// Size and offsets of a record, as host/c/tests/frames.c has them of the header's.
macro_rules! lies {
    ($record:ty, $size:literal, $($field:ident $offset:literal),*) => {
        assert_eq!(size_of::<$record>(), $size);
        $(assert_eq!(offset_of!($record, $field), $offset);)*
    };
}

#[test]
fn layouts() {
    lies!(Vec3, 12, x 0, y 4, z 8);
    lies!(Quat, 16, v 0, s 12);
    lies!(Transform, 28, p 0, q 12);
    lies!(HullSize, 32, unit 0, vertices 8, half_edges 16, faces 24);
    lies!(SatCache, 8, separation 0, kind 4, index_a 5, index_b 6, hit 7);
    lies!(FeaturePair, 4, owner1 0, index1 1, owner2 2, index2 3);
    lies!(Point, 24, position 0, separation 12, pair 16, place 20);
    lies!(Contact, 112, points 0, normal 96, count 108);
    lies!(Outcome, 120, status 0, contact 4, retired 116);
    lies!(HullRecord, 24, numbers 0, links 4, unit 8, vertices 12, half_edges 16, faces 20);
    lies!(Pair, 8, a 0, b 4);
    lies!(Step, 16, status 0, points 8);
    lies!(Apart, 2, status 0, apart 1);
}

/// A step's lists: each record takes as many places as is stated, and what is put in is read again.
#[test]
fn steps() {
    assert_eq!(size_of::<HullRecord>(), 4 * HULL_WORDS);
    assert_eq!(size_of::<Pair>(), 4 * PAIR_WORDS);
    assert_eq!(size_of::<Transform>(), 4 * TRANSFORM_FLOATS);
    assert_eq!(size_of::<SatCache>(), 4 * CACHE_WORDS);
    let words = [7, 9, 10, 24, 72, 14];
    let record = HullRecord::of_words(words);
    assert_eq!(
        (record.numbers, record.links, record.words()),
        (7, 9, words)
    );
    let size = HullSize {
        unit: 10,
        vertices: 24,
        half_edges: 72,
        faces: 14,
    };
    assert_eq!(record.size(), size);

    // The type in the low byte, the hit in the high one.
    let cache = SatCache {
        separation: 0x7fc1_2345,
        kind: 2,
        index_a: 3,
        index_b: 5,
        hit: 1,
    };
    assert_eq!(cache.words(), [0x7fc1_2345, 0x0105_0302]);
    assert_eq!(SatCache::of_words(cache.words()), cache);

    let (empty, unused) = Outcome {
        status: 3,
        contact: Contact::EMPTY,
        retired: 0,
    }
    .in_step();
    assert_eq!(empty, [0.0; PAIR_FLOATS]);
    assert_eq!(unused[..PLACE_BYTES], [&[3][..], &[0; 19]].concat());
    assert_eq!(unused[PLACE_BYTES..], [255; 4]);
    let floats = std::array::from_fn(|i| i as f32);
    let mut bytes: [u8; PAIR_BYTES] = std::array::from_fn(|i| 100 + i as u8);
    bytes[3] = 0;
    let outcome = Outcome::of_step(&floats, &bytes);
    assert_eq!(
        (outcome.status, outcome.contact.count, outcome.retired),
        (100, 101, 102)
    );
    assert_eq!(
        outcome.contact.normal,
        Vec3 {
            x: 0.0,
            y: 1.0,
            z: 2.0
        }
    );
    let third = outcome.contact.points[2];
    assert_eq!(
        (third.position.x, third.position.z, third.separation),
        (11.0, 13.0, 14.0)
    );
    assert_eq!(
        (third.pair.owner1, third.pair.index2, third.place),
        (112, 115, 122)
    );
    assert_eq!(outcome.in_step(), (floats, bytes));
}

/// The widths of the lists are the header's.
#[test]
fn widths() {
    let header = include_str!("../../c/contact.h");
    for (name, width) in [
        ("HULL_WORDS", HULL_WORDS),
        ("PAIR_WORDS", PAIR_WORDS),
        ("TRANSFORM_FLOATS", TRANSFORM_FLOATS),
        ("CACHE_WORDS", CACHE_WORDS),
        ("PAIR_FLOATS", PAIR_FLOATS),
        ("PAIR_BYTES", PAIR_BYTES),
    ] {
        let mut lines = header
            .lines()
            .filter_map(|line| line.strip_prefix("#define CONTACT_"));
        let stated = lines.find_map(|line| line.strip_prefix(name)).expect(name);
        let number = stated.split_whitespace().next().expect(name);
        assert_eq!(number.parse(), Ok(width), "{name}");
    }
    for (name, place) in [
        ("STATUS", STATUS_BYTE),
        ("COUNT", COUNT_BYTE),
        ("RETIRED", RETIRED_BYTE),
        ("TAGS", TAG_BYTES),
        ("PLACES", PLACE_BYTES),
    ] {
        let line = format!("CONTACT_BYTE_{name} = {place}");
        assert!(header.contains(&line), "{line}");
    }
}

#[test]
fn refusals() {
    assert_eq!(Refusal::of_status(0), None);
    for number in 1..=255 {
        let refusal = Refusal::of_status(number).expect("only 0 is accepted");
        let given = matches!(number, 1..=6 | 8 | 17 | 21);
        assert_eq!(Refusal::ALL.contains(&refusal), given, "{number}");
        assert_eq!(refusal.number(), number);
        let words = refusal.to_string();
        assert!(words.starts_with(&format!("refusal {number}: ")), "{words}");
    }
}

#[test]
fn outcomes() {
    let mut contact = Contact::EMPTY;
    contact.count = 2;
    let outcome = Outcome {
        status: 0,
        contact,
        retired: 1,
    };
    assert_eq!(outcome.points().len(), 2);
    assert_eq!(outcome.accepted(), Ok(contact));
    assert!(outcome.retired_type_read());
    let refused = Outcome {
        status: 6,
        contact: Contact::EMPTY,
        retired: 0,
    };
    assert_eq!(refused.accepted(), Err(Refusal::CutFull));
    assert!(!refused.retired_type_read());
    for status in [7, 9, 16, 18, 255] {
        let unknown = Outcome { status, ..refused };
        assert_eq!(unknown.accepted(), Err(Refusal::Unknown { status }));
    }
}

/// Only status 0 is an answer, whatever the other byte says.
#[test]
fn questions() {
    for (apart, told) in [(0, false), (1, true)] {
        let answer = Apart { status: 0, apart };
        assert_eq!((answer.refusal(), answer.accepted()), (None, Ok(told)));
        for status in 1..=u8::MAX {
            let refused = Apart { status, apart };
            let refusal = refused.accepted().expect_err("refused");
            assert_eq!(refusal.number(), status);
            assert_eq!(refused.refusal(), Some(refusal));
        }
    }
}

/// The limits of each unit by their bits, as document 02 makes them: 4096, 8192, 1/1024 and 0.005 times the unit, and four times
/// the last.
#[test]
fn units() {
    let bits = [
        [
            0x4580_0000,
            0x4600_0000,
            0x3a80_0000,
            0x3ba3_d70a,
            0x3ca3_d70a,
        ],
        [
            0x4720_0000,
            0x47a0_0000,
            0x3c20_0000,
            0x3d4c_cccc,
            0x3e4c_cccc,
        ],
        [
            0x48c8_0000,
            0x4948_0000,
            0x3dc8_0000,
            0x3f00_0000,
            0x4000_0000,
        ],
        [
            0x4a7a_0000,
            0x4afa_0000,
            0x3f7a_0000,
            0x40a0_0000,
            0x41a0_0000,
        ],
    ];
    let names = [
        (1, "metres", "m"),
        (10, "decimetres", "dm"),
        (100, "centimetres", "cm"),
        (1000, "millimetres", "mm"),
    ];
    assert_eq!(Unit::default(), Unit::Metres);
    for (unit, (limits, (number, name, symbol))) in
        Unit::ALL.into_iter().zip(bits.into_iter().zip(names))
    {
        let own = [
            unit.farthest(),
            unit.farthest_offset(),
            unit.shortest_edge(),
            unit.slop(),
            unit.speculative_distance(),
        ];
        assert_eq!(own.map(f32::to_bits), limits, "{unit}");
        assert_eq!((unit.per_metre(), unit.scale()), (number, number as f32));
        assert_eq!(
            (usize::from(unit), Unit::try_from(number)),
            (number, Ok(unit))
        );
        assert_eq!((unit.to_string(), unit.symbol()), (name.into(), symbol));
    }
    for per_metre in [
        0,
        2,
        5,
        9,
        11,
        99,
        101,
        999,
        1001,
        10_000,
        65_535,
        usize::MAX,
    ] {
        let unknown = UnknownUnit { per_metre };
        assert_eq!(Unit::try_from(per_metre), Err(unknown));
        let words = format!("the unit is {per_metre} per metre, not 1, 10, 100 or 1000");
        assert_eq!(unknown.to_string(), words);
    }
}

/// An empty contact is zero but for its places, which are 255.
#[test]
fn an_empty_contact() {
    let Contact {
        points,
        normal,
        count,
    } = Contact::EMPTY;
    assert_eq!((normal, count), (Vec3::ZERO, 0));
    for point in points {
        assert_eq!((point.position, point.separation), (Vec3::ZERO, 0.0));
        let FeaturePair {
            owner1,
            index1,
            owner2,
            index2,
        } = point.pair;
        assert_eq!(
            [owner1, index1, owner2, index2, point.place],
            [0, 0, 0, 0, 255]
        );
    }
    assert!(Contact::EMPTY.points().is_empty());
}

/// The lengths that the sizes ask for, and none where no list is so long.
#[test]
fn lengths() {
    let size = |vertices, half_edges, faces| HullSize {
        unit: 1,
        vertices,
        half_edges,
        faces,
    };
    let log = size(24, 72, 14);
    assert_eq!((log.numbers(), log.links()), (Some(134), Some(326)));
    assert_eq!(size(5, 0, 0).numbers(), Some(30));
    assert_eq!(size(usize::MAX, 0, 0).numbers(), None);
    assert_eq!(size(0, 0, usize::MAX).numbers(), None);
    assert_eq!(size(0, usize::MAX, 0).links(), None);
    assert_eq!(size(usize::MAX, 0, 1).links(), None);
    let other = HullSize { unit: 77, ..log };
    assert_eq!((other.numbers(), other.links()), (Some(134), Some(326)));
    assert_eq!(log.known_unit(), Ok(Unit::Metres));
    assert_eq!(other.known_unit(), Err(UnknownUnit { per_metre: 77 }));
}

/// The header and the page of rules say what the refusals and the rules say here.
#[test]
fn one_wording() {
    let header = include_str!("../../c/contact.h");
    let page = include_str!("../../../docs/RULES.md");
    let refusals = Refusal::ALL.map(|refusal| (refusal.meaning(), refusal.remedy()));
    let rules = Rule::ALL.map(|rule| (rule.meaning(), rule.remedy()));
    for (meaning, remedy) in refusals.into_iter().chain(rules) {
        for words in [meaning, remedy] {
            assert!(header.contains(&format!("return \"{words}\";")), "{words}");
        }
        assert!(page.contains(meaning), "{meaning}");
        assert!(
            page.contains(&format!("- what to do: {remedy}\n")),
            "{remedy}"
        );
    }
}

#[test]
fn rules() {
    assert_eq!(Rule::of_number(0), None);
    for number in 10..=255 {
        assert_eq!(Rule::of_number(number), None, "{number}");
    }
    assert_eq!(Rule::ALL.len(), 9);
    for number in 1..=9 {
        let rule = Rule::of_number(number).expect("a rule");
        assert_eq!(rule.number(), number);
        let words = rule.to_string();
        assert!(
            words.starts_with(&format!("H{number} is broken: ")),
            "{words}"
        );
        assert!(words.contains("; what to do: "), "{words}");
    }
}

/// Every type of a cache in words, with the number that goes with it.
#[test]
fn caches() {
    let cache = SatCache {
        separation: 0xbf80_0000,
        kind: 2,
        index_a: 7,
        index_b: 9,
        hit: 1,
    };
    assert_eq!(cache.separation(), -1.0);
    assert!(cache.hit() && !SatCache::EMPTY.hit());
    let words = |kind| SatCache { kind, ..cache }.kind().to_string();
    assert_eq!(words(2), "face 7 of A");
    assert_eq!(words(3), "face 9 of B");
    assert_eq!(words(4), "edge 7 of A across edge 9 of B");
    assert_eq!(words(6), "no axis (type 6 is retired)");
    assert_eq!(words(7), "no axis (type 7 is retired)");
    assert_eq!(words(8), "no axis (type 8 is retired)");
    for kind in (0..=1).chain([5]).chain(9..=255) {
        assert_eq!(words(kind), "no axis", "{kind}");
    }
    for kind in 0..=255 {
        let retired = SatCache { kind, ..cache }.has_retired_type();
        assert_eq!(retired, (6..=8).contains(&kind), "{kind}");
    }
}
