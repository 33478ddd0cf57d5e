//! The stored frames are those that `store` writes, and hold what they are to hold.
#![cfg(rust_text)]

use cases::calls::Given;
use cases::shapes::breaks::RULES;
use cases::shapes::kinds::SHELLS;
use cases::shapes::solids::block;
use cases::shapes::{Link, Shape};
use frames::codec::{decode, Asked, COUNT, HIT, NEXT_CACHE, PLACES, RETIRED, STATUS, TYPE};
use frames::{hex, stored, wanted};
use records::{SatCache, Unit};
use std::collections::HashSet;
use std::fs;
use std::path::Path;

fn is_end(byte: &u8) -> bool {
    *byte == b'\n'
}

fn read(name: &str) -> Vec<u8> {
    let folder = Path::new(env!("CARGO_MANIFEST_DIR")).join("../../crates/contact");
    fs::read(folder.join(name)).expect("the file is there")
}

#[test]
fn files_are_those_that_store_writes() {
    let (input, output) = stored::files(&read("stdin"));
    assert!(read("stdin") == input && read("stdout") == output);
}

#[test]
fn answers_are_those_that_are_wanted() {
    assert!(wanted::to_input(&read("stdin")) == Some(read("stdout")));
}

/// What a call's line asks.
fn given(line: &[u8]) -> Given {
    let frame = hex::read(line).expect("a call is digits");
    let Ok(Asked::Call(given)) = decode(&frame) else {
        panic!("the line is no call");
    };
    given
}

/// What each stored call asks, and its answer.
fn calls() -> Vec<(Given, Vec<u8>)> {
    let (input, output) = (read("stdin"), read("stdout"));
    let bytes = |answer| hex::read(answer).expect("an answer is digits");
    let answers = output.split(is_end).map(bytes);
    let calls = input
        .split(is_end)
        .zip(answers)
        .filter(|(_, answer)| answer[0] == 0x92);
    calls.map(|(line, answer)| (given(line), answer)).collect()
}

/// Each fault, each refusal that can be met, each rule of either hull, each type of cache and each count of points; the last line lacks its end.
#[test]
fn all_that_must_be_is_stored() {
    let (input, output) = (read("stdin"), read("stdout"));
    assert_ne!(input.last(), Some(&b'\n'));
    let lines: Vec<&[u8]> = input.split(is_end).collect();
    let answers: Vec<&[u8]> = output
        .strip_suffix(b"\n")
        .expect("a line end")
        .split(is_end)
        .collect();
    assert_eq!(lines.len(), answers.len());
    let begins: HashSet<&[u8]> = answers.iter().map(|answer| &answer[..4]).collect();
    for begin in ["ff08", "ff21", "ff22", "ff23", "ff24"] {
        assert!(begins.contains(begin.as_bytes()), "{begin}");
    }
    for refusal in (0..=6).chain([17]) {
        let begin = format!("92{refusal:02x}");
        assert!(begins.contains(begin.as_bytes()), "{begin}");
    }
    for (refusal, side) in [(b"9201", 0), (b"9202", 1)] {
        let refused = lines
            .iter()
            .zip(&answers)
            .filter(|(_, answer)| answer.starts_with(refusal));
        let rules: HashSet<u8> = refused
            .map(|(line, _)| given(line).side(side).broken_rule())
            .collect();
        assert_eq!(rules, HashSet::from_iter(1..=RULES), "hull {side}");
    }
    let accepted = lines
        .iter()
        .zip(&answers)
        .filter(|(_, answer)| answer.starts_with(b"9200"));
    let (types, counts): (HashSet<&[u8]>, HashSet<&[u8]>) = accepted
        .map(|(line, answer)| (&line[18..20], &answer[20..22]))
        .unzip();
    for cache_type in 0..10 {
        assert!(
            types.contains(format!("{cache_type:02x}").as_bytes()),
            "type {cache_type}"
        );
    }
    for count in 0..=4 {
        assert!(
            counts.contains(format!("{count:02x}").as_bytes()),
            "{count} points"
        );
    }
}

/// How many shells the hull has, where next and twin lead from one half-edge to others, and V - H/2 + F.
fn shells_and_euler(hull: &Shape) -> (usize, i32) {
    let size = hull.size;
    let mut shells = 0;
    let mut reached = HashSet::new();
    for first in 0..size.half_edges {
        shells += usize::from(!reached.contains(&first));
        let mut waiting = vec![first];
        while let Some(edge) = waiting.pop() {
            if reached.insert(edge) {
                waiting.extend([Link::Next, Link::Twin].map(|link| hull.get(edge, link)));
            }
        }
    }
    let euler = size.vertices as i32 - size.half_edges as i32 / 2 + size.faces as i32;
    (shells, euler)
}

/// Each kind that is not one shell as A and as B; as both; beside a transform and a cache that break their rules; and with a
/// capacity below 4, where it is not looked at.
#[test]
fn shells_are_stored() {
    let mut met = HashSet::new();
    let (mut both, mut beside, mut not_looked_at) = (0, HashSet::new(), 0);
    for (mut given, answer) in calls() {
        let rules = [given.a.broken_rule(), given.b.broken_rule()];
        if answer[STATUS] == 0 {
            assert!(rules == [0, 0] || given.capacity < 4);
            not_looked_at += u32::from(rules.contains(&9));
            continue;
        }
        both += u32::from(rules == [9, 9]);
        let Some(side) = usize::from(answer[STATUS])
            .checked_sub(1)
            .filter(|&side| side < 2)
        else {
            continue;
        };
        if rules[side] != 9 {
            continue;
        }
        met.insert((side, shells_and_euler(given.side(side))));
        given.a = Shape::new(&block([1.0; 3]));
        given.b = given.a.clone();
        beside.insert((side, given.call().refusal()));
    }
    for kind in SHELLS {
        let euler = 2 * kind.shells as i32 - 2 * kind.holes as i32;
        for side in 0..2 {
            let stored = met.contains(&(side, (kind.shells, euler)));
            assert!(stored, "{} as hull {side}", kind.name);
        }
    }
    assert!(both > 0 && not_looked_at > 0, "{both} {not_looked_at}");
    let each = |side| [0, 3, 4].map(|refusal| (side, refusal));
    assert_eq!(
        beside,
        HashSet::from_iter([0, 1].into_iter().flat_map(each))
    );
}

/// Each retired type, accepted with the mark, and with a capacity below 4 without; and such a type under each refusal that
/// does not ask for another, without the mark.
#[test]
fn retired_types_are_stored() {
    let mut met = HashSet::new();
    for (given, answer) in calls() {
        if given.cache.has_retired_type() {
            let small = given.capacity < 4;
            met.insert((answer[STATUS], answer[RETIRED], small, given.cache.kind));
        }
    }
    for kind in SatCache::RETIRED_TYPES {
        assert!(met.contains(&(0, 1, false, kind)), "type {kind}");
        assert!(
            met.contains(&(0, 0, true, kind)),
            "type {kind}, a capacity below 4"
        );
    }
    for refusal in [1, 2, 3, 5, 6] {
        let stored = |kind| met.contains(&(refusal, 0, false, kind));
        assert!(
            SatCache::RETIRED_TYPES.into_iter().any(stored),
            "refusal {refusal}"
        );
    }
}

/// On a face of A and on one of B: contacts of more than four candidates, their places not in order, and of four or fewer, in
/// order; an edge point at place 0; and every place that is not used is 255.
#[test]
fn places_are_stored() {
    let mut met = HashSet::new();
    for (given, answer) in calls() {
        let (places, unused) = answer[PLACES..RETIRED].split_at(answer[COUNT].into());
        assert!(unused.iter().all(|&place| place == 255));
        let next_type = answer[NEXT_CACHE + TYPE];
        match (places, next_type) {
            ([], _) => {}
            (_, 4) => {
                assert_eq!(places, [0]);
                met.insert((4, false, true));
            }
            _ => {
                let count = wanted::candidates(&given, &answer);
                assert!(places.iter().all(|&place| usize::from(place) < count));
                let in_order = places.iter().copied().eq(0..answer[COUNT]);
                met.insert((next_type, count > 4, in_order));
            }
        }
    }
    for next_type in [2, 3] {
        for reduced in [false, true] {
            let stored = met.contains(&(next_type, reduced, !reduced));
            assert!(stored, "type {next_type}, reduced {reduced}");
        }
        assert!(!met.contains(&(next_type, false, false)));
    }
    assert!(met.contains(&(4, false, true)), "an edge point");
}

/// In each unit: contacts on faces and on edges, hits with and without points, axes apart, hulls refused for their numbers,
/// transforms refused.
#[test]
fn units_are_stored() {
    let mut met = HashSet::new();
    for (mut given, answer) in calls() {
        let [a, b] = [&given.a, &given.b].map(|hull| hull.size.known_unit());
        let Ok(unit) = a.and_then(|a| b.map(|b| [a, b])) else {
            continue;
        };
        if unit[0] != unit[1] || given.capacity < 4 {
            continue;
        }
        let way = match answer[STATUS] {
            0 => {
                let next = &answer[NEXT_CACHE..COUNT];
                let axis = ["none", "none", "face", "face", "edges"][usize::from(next[TYPE])];
                let points = if answer[COUNT] > 0 { "points" } else { "none" };
                (axis, points, next[HIT])
            }
            1 | 2 => {
                let side = usize::from(answer[STATUS]) - 1;
                ("broken", "", given.side(side).broken_rule())
            }
            refusal => ("refused", "", refusal),
        };
        met.insert((unit[0].per_metre(), way));
    }
    for unit in Unit::ALL {
        for way in [
            ("face", "points", 0),
            ("face", "points", 1),
            ("face", "none", 0),
            ("face", "none", 1),
            ("edges", "points", 0),
            ("edges", "points", 1),
            ("broken", "", 8),
            ("refused", "", 3),
        ] {
            assert!(met.contains(&(unit.per_metre(), way)), "{unit}: {way:?}");
        }
    }
}

/// Refusal 17 alone and beside a transform and a cache that break their rules; hulls that break one beside unlike units, which are
/// refused by 1 and 2; a capacity below 4; and of both hulls each number that is no unit and has a name in the examples.
#[test]
fn unlike_and_unknown_units_are_stored() {
    let (mut beside, mut not_looked_at, mut unknown) = (HashSet::new(), 0, HashSet::new());
    for (mut given, answer) in calls() {
        let units = [given.a.size.unit, given.b.size.unit];
        let rules = [given.a.broken_rule(), given.b.broken_rule()];
        if given.capacity < 4 {
            not_looked_at += u32::from(units[0] != units[1]);
            continue;
        }
        for side in 0..2 {
            if answer[STATUS] == [1, 2][side] && rules[side] == 1 {
                unknown.insert((side, units[side]));
            }
        }
        if units[0] == units[1] || units.iter().any(|&unit| Unit::try_from(unit).is_err()) {
            continue;
        }
        given.a = Shape::new(&block([1.0; 3])).in_unit(given.a.unit());
        given.b = given.a.clone();
        beside.insert((answer[STATUS], given.call().refusal()));
    }
    for others in [0, 3, 4] {
        for status in [17, 1, 2] {
            assert!(beside.contains(&(status, others)), "{status}, {others}");
        }
    }
    assert!(beside
        .iter()
        .all(|&(status, _)| [1, 2, 17].contains(&status)));
    assert!(not_looked_at > 0);
    for unit in [0, 2, 5, 10_000, 65_535] {
        for side in 0..2 {
            assert!(unknown.contains(&(side, unit)), "{unit} of hull {side}");
        }
    }
}
